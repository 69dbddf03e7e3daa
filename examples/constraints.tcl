# Writes the constraints of a board for a tool flow: pins, buses, clocks and delays, out of a table of ports. Further
# ports may stand on the command line, four words each. A pin that is used twice ends the script with status 1.
#
#     ./tclint examples/constraints.tcl                                the constraints
#     ./tclint examples/constraints.tcl in button LVCMOS33 "T18 T17"   with one port more
#     ./tclint examples/constraints.tcl --pins                         the pins in order

# Ports: direction, name, I/O standard, and the pins, the lowest bit first.
set ports {
    in   clk     LVCMOS33  Y5
    in   rst_n   LVCMOS33  U18
    in   switch  LVCMOS33  {V17 V16 Y16 Y17}
    out  led     LVCMOS33  {U16 E19 U19 V19 Y18 U15}
    out  tx      LVCMOS18  A18
    in   rx      LVCMOS18  B18
}
# Clocks: name, port, frequency in kHz.
set clocks {
    sys  clk  100000
    ref  rx   33333
}
# Delays against a clock, in picoseconds.
set delays {sys 1250 ref 800}

# Nanoseconds with three digits behind the point, from picoseconds.
proc nanoseconds {ps} {
    return [format "%d.%03d" [expr {$ps / 1000}] [expr {$ps % 1000}]]
}

# The period in picoseconds of a frequency in kHz, rounded.
proc period {khz} {
    return [expr {(2 * 1000000000 + $khz) / (2 * $khz)}]
}

# Each bit of a port: its name in the netlist, and its pin.
proc bits {name pins} {
    if {[llength $pins] == 1} {return [list $name [lindex $pins 0]]}
    set found {}
    set bit 0
    foreach pin $pins {
        lappend found "$name\[$bit\]" $pin
        incr bit
    }
    return $found
}

# Every pin with its bit. A pin that is taken twice is an error.
proc pins_of {ports} {
    set taken [dict create]
    foreach {direction name standard pins} $ports {
        foreach {bit pin} [bits $name $pins] {
            if {[dict exists $taken $pin]} {error "pin $pin: $bit, but [dict get $taken $pin] has it"}
            dict set taken $pin $bit
        }
    }
    return $taken
}

set show_pins [expr {[lindex $argv 0] eq "--pins"}]
lappend ports {*}[lrange $argv $show_pins end]
if {[llength $ports] % 4} {
    puts stderr "usage: constraints.tcl ?--pins? ?direction name standard pins ...?"
    exit 2
}
if {[catch {pins_of $ports} taken]} {
    puts stderr $taken
    exit 1
}
if {$show_pins} {
    foreach pin [lsort [dict keys $taken]] {puts "$pin [dict get $taken $pin]"}
    exit
}

puts "# [dict size $taken] pins, written by constraints.tcl: don't edit"
foreach {direction name standard pins} $ports {
    puts "\n# $direction $name, $standard"
    foreach {bit pin} [bits $name $pins] {
        puts "set_property -dict {PACKAGE_PIN $pin IOSTANDARD $standard} \[get_ports {$bit}\]"
    }
}
foreach {clock port khz} $clocks {
    set ps [period $khz]
    set half [expr {$ps / 2}]
    puts "\n# $clock: $khz kHz"
    puts "create_clock -name $clock -period [nanoseconds $ps] -waveform {0 [nanoseconds $half]} \[get_ports {$port}\]"
    puts "set_input_delay -clock $clock -max [nanoseconds [dict get $delays $clock]] \[all_inputs\]"
}
set names [lmap {clock port khz} $clocks {set clock}]
puts "\nset_clock_groups -asynchronous[join [lmap name $names {format { -group {%s}} $name}] {}]"
