set d {a 1}; dict set d b c 2; puts $d
