# A register map with bit fields, which are read, changed and written back over a bus, and words dumped in hexadecimal.
#
#     ./tclint examples/registers.tcl

# register, address, value after reset
set registers {
    CTRL    0x40001000  0x03640008
    STATUS  0x40001004  0x00000041
    IRQ     0x40001008  0x00000000
    BAUD    0x4000100C  0x0000D903
}
# register, field, highest bit, lowest bit, access
set fields {
    CTRL    ENABLE    0   0  rw
    CTRL    PARITY    2   1  rw
    CTRL    STOP      3   3  rw
    CTRL    TIMEOUT  31  16  rw
    STATUS  READY     0   0  ro
    STATUS  LEVEL     7   4  ro
    IRQ     MASK      3   0  rw
    IRQ     PENDING  11   8  rw
    BAUD    DIVISOR  15   4  rw
}

# The bus: a word of 32 bits at an address.
set accesses 0
proc peek {at} {
    incr ::accesses
    return $::memory($at)
}
proc poke {at word} {
    incr ::accesses
    set ::memory($at) [expr {$word & 0xFFFFFFFF}]
}

# Looks a field up, or fails with what is wrong.
proc field_of {register name} {
    if {[info exists ::field($register,$name)]} {return $::field($register,$name)}
    error "no field $register.$name"
}

proc read_field {register name} {
    lassign [field_of $register $name] shift mask
    return [expr {([peek $::address($register)] & $mask) >> $shift}]
}

# Read, modify, write: the other fields of the register stay.
proc write_field {register name value} {
    lassign [field_of $register $name] shift mask access
    if {$access ne "rw"} {error "$register.$name is read-only"}
    if {$value < 0 || ($value << $shift) & ~$mask} {
        error [format "%d doesn't fit %s.%s (0x%08X)" $value $register $name $mask]
    }
    set at $::address($register)
    poke $at [expr {([peek $at] & ~$mask) | ($value << $shift)}]
}

# Words from an address on, four in a line.
proc dump {from count} {
    for {set i 0} {$i < $count} {incr i} {
        set at [expr {$from + 4 * $i}]
        if {$i % 4 == 0} {puts -nonewline [format "%08X:" $at]}
        puts -nonewline [format " %08x%s" [peek $at] [expr {$i % 4 == 3 || $i == $count - 1 ? "\n" : ""}]]
    }
}

# address(REGISTER) is where it stands, field(REGISTER,FIELD) its shift, mask and access.
foreach {register at reset} $registers {
    set address($register) [expr {$at}]
    poke $address($register) $reset
}
foreach {register name high low access} $fields {
    set field($register,$name) [list $low [expr {((1 << ($high - $low + 1)) - 1) << $low}] $access]
}

dump 0x40001000 4
foreach {register name value} {
    CTRL ENABLE 1  CTRL PARITY 0b10  CTRL TIMEOUT 1000  IRQ MASK 0xF  BAUD DIVISOR 0x1A0
    STATUS READY 0  CTRL PARITY 4  IRQ NOSUCH 1
} {
    if {[catch {write_field $register $name $value} message]} {puts "refused: $message"}
}
dump 0x40001000 4

foreach {register name high low access} $fields {
    set value [read_field $register $name]
    puts [format "%-7s %-9s %-7s %s %5d  0x%0*X  %0*b" $register $name "\[$high:$low\]" $access $value \
        [expr {($high - $low) / 4 + 1}] $value [expr {$high - $low + 1}] $value]
}
puts "$accesses accesses"
