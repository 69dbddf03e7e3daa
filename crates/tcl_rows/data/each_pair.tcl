dict for {k v} {a 1 b 2} {puts $k$v}
