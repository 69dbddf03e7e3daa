upvar 0 a b; upvar 0 b a
