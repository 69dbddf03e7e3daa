# Writes measurements as CSV with the quoting of RFC 4180, reads that back, and compares: what is read must be what was
# written, with commas, quotes and line ends inside fields.
#
#     ./tclint examples/csv.tcl
#     ./tclint examples/csv.tcl ";"      another separator

# A field: in quotes where it holds a separator, a quote, a line end, or a space at an end.
proc csv_field {text separator} {
    foreach special [list $separator \" \n \r] {
        if {[string first $special $text] >= 0} {return "\"[string map {\" \"\"} $text]\""}
    }
    if {[string trim $text] ne $text} {return "\"$text\""}
    return $text
}

# A line of a row's fields.
proc csv_line {row {separator ,}} {
    return [join [lmap text $row {csv_field $text $separator}] $separator]
}

# The rows of a text, read character by character. A quote within quotes is one of a pair, or ends them: the next
# character tells.
proc csv_rows {text {separator ,}} {
    set rows {}
    set row {}
    set field ""
    set state plain
    foreach c [split $text {}] {
        if {$state eq "quoted"} {
            if {$c eq "\""} {set state quote} else {append field $c}
        } elseif {$c eq "\""} {
            if {$state eq "quote"} {append field $c}
            set state quoted
        } elseif {$c eq $separator || $c eq "\n"} {
            lappend row $field
            set field ""
            set state plain
            if {$c eq "\n"} {
                lappend rows $row
                set row {}
            }
        } else {
            append field $c
        }
    }
    if {$state eq "quoted"} {error "a quote is open at the end"}
    return $rows
}

set separator ","
if {$argc > 0} {set separator [lindex $argv 0]}
if {[string length $separator] != 1} {
    puts stderr "usage: csv.tcl ?separator?, a single character"
    exit 2
}

set rows {
    {Device Channel Reading Remark}
    {PSU-1 A 3300 ok}
    {PSU-1 B 4998 {ok, after 2 s}}
    {{Scope "old"} 1 -12 {noise; see note}}
    {{Load 10R} {} 0 { two spaces in front}}
    {Chamber TA 85 "first line\nsecond \"line\""}
    {{} {} {} {}}
}
set text ""
foreach row $rows {append text [csv_line $row $separator] \n}
puts -nonewline $text

set back [csv_rows $text $separator]
puts "[llength $back] rows, [string length $text] characters"
foreach row $rows read $back {
    foreach one $row two $read {
        if {$one ne $two} {
            puts "differs: <$one> was read as <$two>"
            exit 1
        }
    }
}
puts "read back the same"
if {[catch {csv_rows "a,\"b\n"} message]} {puts "refused: $message"}
