proc f {a {b 2} args} {puts $a,$b,$args}; f
