foreach x {1 2 3} {if {$x == 2} continue; puts $x}
