try {puts a} bogus
