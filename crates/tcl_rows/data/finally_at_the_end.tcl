try {set x 1} finally {puts f}
