expr {0 ** -1}
