# Options of a command line: short and long ones, with values and without, "--" before operands that begin with "-", a
# usage, and an exit status that a shell or a makefile can ask for: 0 is done, 2 is a wrong use.
#
#     ./tclint examples/options.tcl -v --seed=0x2A -n 3 -- top.v -odd.v
#     ./tclint examples/options.tcl --help

# Option, its short form, its kind, its default, its purpose.
set options {
    --help     -h  flag    0        "shows this usage"
    --verbose  -v  flag    0        "says more"
    --count    -n  number  1        "runs so many times"
    --seed     -s  number  1        "the first random number"
    --mode     -m  choice  rtl      "what is run: rtl, gate or lint"
    --define   -D  pairs   {}       "sets NAME=VALUE, and may stand several times"
}
set modes {rtl gate lint}

proc usage {} {
    set lines [list "usage: options.tcl ?option ...? ?--? file ?file ...?"]
    foreach {long short kind default purpose} $::options {
        set name [expr {$kind eq "flag" ? $long : "$long=[string toupper $kind]"}]
        lappend lines [format "  %s, %-16s %s" $short $name $purpose]
    }
    return [join $lines \n]
}

# Ends with a message and the usage on standard error.
proc wrong {message} {puts stderr "options.tcl: $message\n[usage]"; exit 2}

# The value of an option in its own form.
proc value {kind name text before} {
    switch $kind {
        number {
            if {![string is integer -strict $text] || $text < 0} {wrong "$name wants a number from 0 on, not \"$text\""}
            return [expr {$text}]
        }
        choice {
            if {$text ni $::modes} {wrong "$name wants one of [join $::modes ", "], not \"$text\""}
        }
        pairs {
            set at [string first = $text]
            if {$at < 1} {wrong "$name wants NAME=VALUE, not \"$text\""}
            return [dict replace $before [string range $text 0 [expr {$at - 1}]] [string range $text [expr {$at + 1}] end]]
        }
    }
    return $text
}

# Reads the words, and answers a dictionary of the options, with the operands as "files".
proc parse {words} {
    foreach {long short kind default purpose} $::options {
        dict set found $long $default
        dict set kinds $long $kind
        dict set longs $short $long
    }
    # what doesn't begin with "-" is the first operand, and so is a lone "-"
    while {[string match -?* [lindex $words 0]]} {
        set words [lassign $words word]
        if {$word eq "--"} break
        set name $word
        set inner -1
        if {[string match --*=* $word]} {
            set inner [string first = $word]
            set name [string range $word 0 [expr {$inner - 1}]]
        }
        if {[dict exists $longs $name]} {set name [dict get $longs $name]}
        if {![dict exists $kinds $name]} {wrong "unknown option $name"}
        if {[dict get $kinds $name] eq "flag"} {
            if {$inner >= 0} {wrong "$name takes no value"}
            set text 1
        } elseif {$inner >= 0} {
            set text [string range $word [expr {$inner + 1}] end]
        } elseif {[llength $words]} {
            set words [lassign $words text]
        } else {
            wrong "$name wants a value"
        }
        dict set found $name [value [dict get $kinds $name] $name $text [dict get $found $name]]
    }
    dict set found files $words
    return $found
}

set given [parse $argv]
if {[dict get $given --help]} {
    puts [usage]
    exit 0
}
if {![llength [dict get $given files]]} {wrong "no file"}
dict for {name value} $given {puts [format "%-9s <%s>" [string trimleft $name -] $value]}
