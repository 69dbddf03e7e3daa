linsert {a b} end x
