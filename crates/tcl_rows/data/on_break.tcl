while 1 {try {break} on break {} {puts b; break}}; puts e
