string last l hello 2
