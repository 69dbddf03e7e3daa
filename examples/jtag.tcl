# A state machine by a table: the TAP controller of IEEE 1149.1, with its 16 states, that is driven by the bits of TMS
# and TDI. It reads the identity of a device and goes through its bypass register.
#
#     ./tclint examples/jtag.tcl

# State: the next one where TMS is 0, and where it is 1.
set next {
    Test-Logic-Reset  {Run-Test/Idle  Test-Logic-Reset}
    Run-Test/Idle     {Run-Test/Idle  Select-DR-Scan}
    Select-DR-Scan    {Capture-DR     Select-IR-Scan}
    Capture-DR        {Shift-DR       Exit1-DR}
    Shift-DR          {Shift-DR       Exit1-DR}
    Exit1-DR          {Pause-DR       Update-DR}
    Pause-DR          {Pause-DR       Exit2-DR}
    Exit2-DR          {Shift-DR       Update-DR}
    Update-DR         {Run-Test/Idle  Select-DR-Scan}
    Select-IR-Scan    {Capture-IR     Test-Logic-Reset}
    Capture-IR        {Shift-IR       Exit1-IR}
    Shift-IR          {Shift-IR       Exit1-IR}
    Exit1-IR          {Pause-IR       Update-IR}
    Pause-IR          {Pause-IR       Exit2-IR}
    Exit2-IR          {Shift-IR       Update-IR}
    Update-IR         {Run-Test/Idle  Select-DR-Scan}
}
# Instruction: the data register that it selects, its width, what is captured.
set instructions {
    2   {IDCODE 32 0x149511C3}
    15  {BYPASS 1 0}
}

# The actions of states. Each works on the array tap, and answers the bit at TDO, or nothing.
proc Test-Logic-Reset {tdi} {set ::tap(ir) 2; return ""}
proc Capture-IR {tdi} {set ::tap(shift) 1; set ::tap(width) 4; return ""}
proc Update-IR {tdi} {set ::tap(ir) $::tap(shift); return ""}
proc Capture-DR {tdi} {
    lassign [dict get $::instructions $::tap(ir)] name ::tap(width) ::tap(shift)
    return ""
}
proc Shift-DR {tdi} {
    set out [expr {$::tap(shift) & 1}]
    set ::tap(shift) [expr {($::tap(shift) >> 1) | ($tdi << ($::tap(width) - 1))}]
    return $out
}
proc Shift-IR {tdi} {Shift-DR $tdi}

# One clock: the action of the state, then the step that TMS says.
proc tick {tms {tdi 0}} {
    set state $::tap(state)
    set tdo ""
    if {[llength [info procs $state]]} {set tdo [$state $tdi]}
    set ::tap(state) [lindex [dict get $::next $state] $tms]
    dict incr ::visits $state
    return $tdo
}

# Goes along a path of TMS bits.
proc walk {bits} {
    foreach tms [split $bits {}] {tick $tms}
    puts [format "%-8s -> %s" $bits $::tap(state)]
}

# Shifts bits in, the lowest first, leaves by TMS at the last, and answers what came out.
proc shift {value width} {
    set out 0
    for {set i 0} {$i < $width} {incr i} {
        set last [expr {$i == $width - 1}]
        set out [expr {$out | ([tick $last [expr {($value >> $i) & 1}]] << $i)}]
    }
    return $out
}

array set tap {state Pause-DR ir 15 shift 0 width 0}
walk 11111
walk 0100
puts [format "IDCODE     0x%08X" [set id [shift 0 32]]]
puts [format "  version %d, part 0x%04X, manufacturer 0x%03X" [expr {$id >> 28}] [expr {($id >> 12) & 0xFFFF}] [expr {($id >> 1) & 0x7FF}]]
walk 10
walk 1100
puts [format "IR out     %04b" [shift 15 4]]
walk 10
walk 100
puts [format "BYPASS     %08b of %08b" [shift 0b10110101 8] 0b10110101]
walk 10
foreach state [lsort [dict keys $visits]] {puts [format "%-17s %3d" $state [dict get $visits $state]]}
