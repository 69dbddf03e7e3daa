lindex {{a}b} 0
