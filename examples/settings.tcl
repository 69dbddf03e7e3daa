# Reads a configuration from standard input: sections, comments, defaults, and faults with their line numbers. Each
# fault is told, not only the first; with any the exit status is 1.
#
#     ./tclint examples/settings.tcl < tests/examples/settings.stdin

# What may be set: section, key, kind, default.
set known {
    board   name     text    unnamed
    board   slots    number  4
    serial  port     text    ttyS0
    serial  speed    number  115200
    serial  echo     switch  off
    memory  base     number  0x20000000
    memory  regions  list    ram
}

# The value in its own form, or an error.
proc checked {kind value} {
    switch $kind {
        number {
            if {![string is integer -strict $value]} {error "\"$value\" is no whole number"}
            return [expr {$value}]
        }
        switch {
            if {![string is boolean -strict $value]} {error "\"$value\" is neither on nor off"}
            return [expr {$value ? "on" : "off"}]
        }
        list {
            return [lmap item [split $value ,] {string trim $item}]
        }
    }
    return $value
}

# Takes one line into the settings: a section's head, a key with its value, or nothing. A fault is an error.
proc take_line {line} {
    global section settings kinds
    set line [string trim [lindex [split $line "#"] 0]]
    if {$line eq ""} return
    if {[string match {\[*\]} $line]} {
        set section [string trim $line {[] }]
        if {![dict exists $settings $section]} {error "no section \"$section\""}
        return
    }
    set parts [split $line =]
    if {[llength $parts] < 2} {error "expected KEY = VALUE or \[SECTION\], got \"$line\""}
    set key [string trim [lindex $parts 0]]
    set value [string trim [join [lrange $parts 1 end] =]]
    if {$section eq ""} {error "\"$key\" stands before the first section"}
    if {![dict exists $settings $section $key]} {error "no key \"$key\" in section \"$section\""}
    dict set settings $section $key [checked [dict get $kinds $section $key] $value]
}

foreach {name key kind default} $known {
    dict set settings $name $key $default
    dict set kinds $name $key $kind
}
set section ""
set number 0
set faults 0
while {[gets stdin line] >= 0} {
    incr number
    if {[catch {take_line $line} message]} {
        puts stderr "line $number: $message"
        incr faults
    }
}

dict for {name keys} $settings {
    puts "\[$name\]"
    dict for {key value} $keys {puts [format "  %-8s = %s" $key $value]}
}
if {$faults} {
    puts stderr "$faults faults in $number lines"
    exit 1
}
