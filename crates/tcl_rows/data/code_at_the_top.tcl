return -code 7 -level 0 r
