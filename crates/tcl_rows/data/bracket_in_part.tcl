puts "[puts x][set y 2]"
