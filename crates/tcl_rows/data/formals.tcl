proc f {a {b 2} args} {puts $a,$b,$args}; f 1; f 1 3 4 5
