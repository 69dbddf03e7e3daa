expr {(1}
