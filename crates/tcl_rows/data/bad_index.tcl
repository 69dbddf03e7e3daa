lindex a x
