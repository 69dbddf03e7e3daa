set x world
puts "hello, $x"
