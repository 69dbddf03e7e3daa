expr {08 + 1}
