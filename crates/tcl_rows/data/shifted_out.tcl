expr {1 << 63}
