set x 1; puts "$x;[set x 2]"
