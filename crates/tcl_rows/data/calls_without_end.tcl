proc f {n} {f $n}; f 1
