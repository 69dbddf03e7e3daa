puts a; puts b
