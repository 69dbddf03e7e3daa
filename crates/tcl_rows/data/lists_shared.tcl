set x {}; for {set i 0} {$i < 20} {incr i} {set x [list $x $x]}; puts [string length $x]
