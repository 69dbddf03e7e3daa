expr {max(1, 0x3, 2)}
