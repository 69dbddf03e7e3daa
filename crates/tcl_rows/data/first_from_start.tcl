string first l hello 3
