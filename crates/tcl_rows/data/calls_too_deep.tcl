proc f {n} {if {$n > 0} {f [expr {$n - 1}]}}; f 500
