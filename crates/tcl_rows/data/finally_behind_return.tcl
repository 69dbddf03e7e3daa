proc f {} {try {return 1} finally {puts f}}; puts [f]
