puts [catch {try {error a} on error {m} {error b$m} finally {puts f}} r],$r
