apply {x {set x}} 5
