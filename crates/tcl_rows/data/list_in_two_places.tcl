set x {a b}; set y [list $x $x]; lset y 0 0 z; puts "$x|$y"
