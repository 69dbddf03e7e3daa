set s {set a}; proc f {a b} {eval $::s}; proc g {b a} {eval $::s}; puts [f 1 2][g 1 2]
