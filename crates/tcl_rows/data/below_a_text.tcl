dict exists {a 1} a b
