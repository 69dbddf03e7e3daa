# Prints lines of fields as a table: each column is as wide as its widest field, and columns of numbers stand to the
# right. The first line is the head. The separator of the fields is an argument, a comma where none is given.
#
#     ./tclint examples/table.tcl < tests/examples/table.stdin
#     ./tclint examples/table.tcl : < tests/examples/table-colon.stdin

# The lines of standard input as rows of trimmed fields.
proc read_rows {separator} {
    set rows {}
    while {[gets stdin line] >= 0} {
        if {[string trim $line] eq ""} continue
        lappend rows [lmap field [split $line $separator] {string trim $field}]
    }
    return $rows
}

# Of each column the widest field, and whether all fields below the head are whole numbers or empty.
proc measure {rows} {
    set widths {}
    set numeric {}
    set first 1
    foreach row $rows {
        set column 0
        foreach field $row {
            if {$column == [llength $widths]} {
                lappend widths 0
                lappend numeric 1
            }
            lset widths $column [expr {max([lindex $widths $column], [string length $field])}]
            if {!$first && ![string is integer $field]} {lset numeric $column 0}
            incr column
        }
        set first 0
    }
    return [list $widths $numeric]
}

# A line with a text of each column's width between two borders.
proc rule {widths {border +} {fill -}} {
    return "$border[join [lmap width $widths {string repeat $fill [expr {$width + 2}]}] $border]$border"
}

# A row; a short one ends with empty fields.
proc table_line {row widths numeric} {
    set cells {}
    foreach width $widths right $numeric field $row {
        if {!$right} {set width [expr {-$width}]}
        lappend cells [format " %*s " $width $field]
    }
    return "|[join $cells |]|"
}

set separator ","
if {$argc > 0} {set separator [lindex $argv 0]}
set rows [read_rows $separator]
if {[llength $rows] == 0} {
    puts stderr "table.tcl: nothing on standard input"
    exit 1
}
lassign [measure $rows] widths numeric
puts [rule $widths]
puts [table_line [lindex $rows 0] $widths $numeric]
puts [rule $widths + =]
foreach row [lrange $rows 1 end] {puts [table_line $row $widths $numeric]}
puts [rule $widths]
puts "[expr {[llength $rows] - 1}] rows, [llength $widths] columns"
