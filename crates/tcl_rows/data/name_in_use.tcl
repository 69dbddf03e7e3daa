proc p {} {set x 1; upvar 1 y x}; p
