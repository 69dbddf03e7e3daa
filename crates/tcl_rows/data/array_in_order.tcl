array set a {y 2 x 1}; puts [array get a]
