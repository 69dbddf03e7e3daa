puts a
