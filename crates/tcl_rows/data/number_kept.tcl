set x 0x10; expr {$x + 1}; puts $x
