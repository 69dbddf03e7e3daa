catch {throw {A B} m} r o; puts $o
