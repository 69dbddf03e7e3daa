proc c {} {rename if if2; return 1}; if {[c]} {puts yes}
