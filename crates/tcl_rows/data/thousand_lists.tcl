set x {a b}; for {set i 0} {$i < 1000} {incr i} {set x [list $x]}; puts [string length $x]
