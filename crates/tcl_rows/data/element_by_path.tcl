lindex {a {b c}} 1 end
