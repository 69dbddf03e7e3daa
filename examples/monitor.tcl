# A dialogue over standard input: a monitor that shows and changes a memory of 256 bytes. It answers each line at once,
# so it can be typed to, or be driven by another program.
#
#     ./tclint examples/monitor.tcl
#     ./tclint examples/monitor.tcl < tests/examples/monitor.stdin

set size 256
set last [expr {$size - 1}]
set memory [lrepeat $size 0]
# command, how many words it takes at least and at most, their names, what it does
set commands {
    peek  1  1    {ADDRESS}              "shows a byte"
    poke  2  257  {ADDRESS BYTE ...}     "writes bytes from an address on"
    fill  3  3    {ADDRESS COUNT BYTE}   "writes a byte so many times"
    dump  2  2    {ADDRESS COUNT}        "shows bytes, 16 a line"
    sum   0  0    {}                     "shows the sum of all bytes"
    help  0  0    {}                     "shows this list"
    quit  0  0    {}                     "ends"
}

# A number from a word, within bounds.
proc number {word low high} {
    if {![string is integer -strict $word]} {error "\"$word\" is no number"}
    if {$word < $low || $word > $high} {error "$word is not from $low to $high"}
    return [expr {$word}]
}

proc poke {address bytes} {
    set at [number $address 0 $::last]
    set values [lmap byte $bytes {number $byte 0 255}]
    if {$at + [llength $values] > $::size} {error "past the end of the memory"}
    set ::memory [lreplace $::memory $at [expr {$at + [llength $values] - 1}] {*}$values]
    return "[llength $values] written"
}

proc dump {address count} {
    set at [number $address 0 $::last]
    set end [expr {$at + [number $count 1 $::size]}]
    set lines {}
    for {} {$at < $end && $at <= $::last} {incr at 16} {
        set row [lrange $::memory $at [expr {min($at + 16, $end) - 1}]]
        set hex [join [lmap byte $row {format %02x $byte}]]
        set text ""
        foreach byte $row {append text [format %c [expr {$byte >= 32 && $byte < 127 ? $byte : 46}]]}
        lappend lines [format "%02x: %-47s |%s|" $at $hex $text]
    }
    return [join $lines \n]
}

# Does what a line says, and answers what is to be shown.
proc answer {words} {
    set rest [lassign $words command]
    foreach {name least most usage purpose} $::commands {
        if {$name eq $command && ([llength $rest] < $least || [llength $rest] > $most)} {error "usage: [concat $name $usage]"}
        lappend help [format "%-24s %s" [concat $name $usage] $purpose]
    }
    switch -- $command {
        peek {return [format "0x%02X" [lindex $::memory [number [lindex $rest 0] 0 $::last]]]}
        poke {return [poke [lindex $rest 0] [lrange $rest 1 end]]}
        fill {return [poke [lindex $rest 0] [lrepeat [number [lindex $rest 1] 1 $::size] [lindex $rest 2]]]}
        dump {return [dump {*}$rest]}
        sum {
            set sum 0
            foreach byte $::memory {incr sum $byte}
            return $sum
        }
        help {return [join $help \n]}
        quit {return -code break}
    }
    error "no command \"$command\": try help"
}

while 1 {
    puts -nonewline "> "
    flush stdout
    if {[gets stdin line] < 0} {
        puts "(end of the input)"
        exit 1
    }
    # the line isn't read as a list: braces and quotes are nothing special in it
    set words [lsearch -all -inline -not -exact [split $line] {}]
    if {![llength $words]} continue
    switch [catch {answer $words} message] {
        0 {puts $message}
        1 {puts "error: $message"}
        3 break
    }
}
puts bye
