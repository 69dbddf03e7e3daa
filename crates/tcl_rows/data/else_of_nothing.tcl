if 0 {puts a} else
