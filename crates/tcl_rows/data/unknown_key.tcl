dict get {a 1} b
