# A small test harness: each test has a name, a script and what is expected, of its result or of its error. "catch" keeps
# a failing test from ending the run, and "try" takes down what was set up. The exit status is 1 where a test failed.
#
#     ./tclint examples/unittests.tcl
#     ./tclint examples/unittests.tcl "queue-*"      those whose name matches

set counts [dict create passed 0 failed 0 skipped 0]
set pattern "*"
if {$argc > 0} {set pattern [lindex $argv 0]}

# Counts a test, and says what was wrong with it.
proc verdict {name ok detail} {
    dict incr ::counts [expr {$ok ? "passed" : "failed"}]
    puts [format "%-4s %s" [expr {$ok ? "ok" : "FAIL"}] $name]
    if {!$ok} {puts "       $detail"}
}

# test NAME ?-setup SCRIPT? ?-cleanup SCRIPT? -result VALUE|-error PATTERN|-code LIST SCRIPT
proc test {name args} {
    if {![string match $::pattern $name]} {
        dict incr ::counts skipped
        return
    }
    set script [lindex $args end]
    set given [dict merge {-setup {} -cleanup {}} [lrange $args 0 end-1]]
    try {
        uplevel #0 [dict get $given -setup]
        set code [catch {uplevel #0 $script} result options]
    } finally {
        uplevel #0 [dict get $given -cleanup]
    }
    dict for {what wanted} $given {
        switch -- $what {
            -result {verdict $name [expr {$code == 0 && $result eq $wanted}] "expected <$wanted>, got $code <$result>"}
            -error {verdict $name [expr {$code == 1 && [string match $wanted $result]}] "expected error <$wanted>, got $code <$result>"}
            -code {
                set got [expr {$code == 1 ? [dict get [dict merge {-errorcode NONE} $options] -errorcode] : "no error"}]
                verdict $name [expr {$got eq $wanted}] "expected code <$wanted>, got <$got>"
            }
        }
    }
}

# ---- what is tested: a queue of bounded size, in an array

proc queue_new {name size} {
    upvar #0 $name queue
    array set queue [list size $size items {}]
}
proc queue_put {name item} {
    upvar #0 $name queue
    if {[llength $queue(items)] >= $queue(size)} {throw {QUEUE FULL} "queue is full: $item has no place"}
    lappend queue(items) $item
}
proc queue_take {name} {
    upvar #0 $name queue
    if {![llength $queue(items)]} {throw {QUEUE EMPTY} "queue is empty"}
    set queue(items) [lassign $queue(items) item]
    return $item
}
# Takes what is there, or answers a default in place of the error.
proc queue_poll {name default} {
    try {queue_take $name} trap {QUEUE EMPTY} {} {set default}
}

# ---- the tests
set setup {queue_new q 2}
set cleanup {unset -nocomplain q}

test queue-in-order -setup $setup -cleanup $cleanup -result {a b} {
    queue_put q a
    queue_put q b
    list [queue_take q] [queue_take q]
}
test queue-full -setup $setup -cleanup $cleanup -error "*full: c *" {foreach item {a b c} {queue_put q $item}}
test queue-full-code -setup $setup -cleanup $cleanup -code {QUEUE FULL} {foreach item {a b c} {queue_put q $item}}
test queue-empty-code -setup $setup -cleanup $cleanup -code {QUEUE EMPTY} {queue_take q}
test queue-poll -setup $setup -cleanup $cleanup -result {x none} {
    queue_put q x
    list [queue_poll q none] [queue_poll q none]
}
test queue-unknown -error {can't read "queue(items)": no such *} {queue_put nosuch a}
test queue-taken-down -result 0 {info exists q}
test harness-sees-a-wrong-result -result 5 {expr {2 + 2}}
test harness-sees-another-error -error "*overflow*" {expr {1 / 0}}
test harness-sees-a-break -result {} {break}

dict for {what count} $counts {puts -nonewline "$count $what  "}
puts ""
exit [expr {[dict get $counts failed] > 0}]
