# a [
puts x