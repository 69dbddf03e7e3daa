# A test plan: each test is a row with its inputs and what is expected of an 8-bit adder with flags. The report comes
# by format, with totals of each group; the exit status is the number of tests that failed, at most 63.
#
#     ./tclint examples/testplan.tcl            all groups
#     ./tclint examples/testplan.tcl carry      one group

# group, test, operation, two operands, expected result, expected flags (Zero, Negative, Carry, oVerflow)
set plan {
    basic     add-small       add   3    4    7    -
    basic     add-zero        add   0    0    0    Z
    basic     sub-small       sub   9    4    5    C
    carry     add-wraps       add   200  100  44   C
    carry     add-to-zero     add   255  1    0    ZC
    carry     sub-borrows     sub   3    5    254  N
    overflow  add-two-large   add   100  100  200  NV
    overflow  sub-of-lowest   sub   128  1    127  CV
    overflow  add-two-lowest  add   128  128  0    ZCV
    overflow  sub-wrong-flag  sub   127  255  128  N
}

# The model under test: the result in 8 bits, and the flags that are set.
proc alu {operation a b} {
    if {$operation eq "sub"} {
        set b [expr {~$b & 0xFF}]
        set sum [expr {$a + $b + 1}]
    } else {
        set sum [expr {$a + $b}]
    }
    set result [expr {$sum & 0xFF}]
    set flags ""
    if {$result == 0} {append flags Z}
    if {$result & 0x80} {append flags N}
    if {$sum > 0xFF} {append flags C}
    # the operands have one sign, and the result the other
    if {(($a ^ $result) & ($b ^ $result)) & 0x80} {append flags V}
    if {$flags eq ""} {set flags -}
    return [list $result $flags]
}

# A share in tenths of a percent, as whole numbers allow.
proc percent {part whole} {
    if {$whole == 0} {return "-"}
    set tenths [expr {(2000 * $part + $whole) / (2 * $whole)}]
    return [format "%d.%d%%" [expr {$tenths / 10}] [expr {$tenths % 10}]]
}

set wanted [lindex $argv 0]
set failed 0
set total 0
set line "%-9s %-15s %3s %4s %4s   %-8s %-8s %s"

puts [format $line Group Test Op A B Expected Got Verdict]
puts [string repeat - 68]
foreach {group test operation a b result flags} $plan {
    if {$wanted ne "" && $group ne $wanted} continue
    set expected [format "%02X %s" $result $flags]
    set got [format "%02X %s" {*}[alu $operation $a $b]]
    set verdict [expr {$got eq $expected ? "pass" : "FAIL"}]
    puts [format $line $group $test $operation $a $b $expected $got $verdict]
    incr total
    dict incr tests $group
    dict incr passed $group [expr {$verdict eq "pass"}]
    if {$verdict eq "FAIL"} {incr failed}
}
if {$total == 0} {
    puts stderr "no group \"$wanted\""
    exit 64
}
puts [string repeat - 68]
dict for {group count} $tests {
    set good [dict get $passed $group]
    puts [format "%-9s %3d of %3d  %6s  %s" $group $good $count [percent $good $count] [string repeat # $good][string repeat . [expr {$count - $good}]]]
}
puts [format "%-9s %3d of %3d  %6s" all [expr {$total - $failed}] $total [percent [expr {$total - $failed}] $total]]
exit [expr {min($failed, 63)}]
