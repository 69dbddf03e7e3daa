proc q {} {set ::g 4}; q; puts $g
