set l {{a b} c}; lset l 0 1 x; puts $l
