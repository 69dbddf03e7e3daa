puts [try {throw {A B} m} trap A {r o} {set r}]
