puts [lmap {x y} {1 2 3} {list $y $x}]
