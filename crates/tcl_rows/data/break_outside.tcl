proc f {} {break}; f
