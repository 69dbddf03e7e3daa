expr {"b" in {a b}}
