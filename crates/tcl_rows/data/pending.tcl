catch {return -code 3 -level 2 v} m o; puts $o
