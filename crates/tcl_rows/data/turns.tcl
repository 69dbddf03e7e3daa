foreach x {1 2 3} {}
