expr {abs()}
