proc p {} {set n 0; while {$n < 3} {incr n; if {$n == 1} {rename while w; proc while args {return mine}}}; return "$n [while 0 {}]"}; puts [p]
