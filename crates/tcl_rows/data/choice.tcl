expr {1 ? 2 : [puts no]}
