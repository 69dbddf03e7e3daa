expr {"a" + 1}
