# The CRC-32 of texts (polynomial 0xEDB88320, as zip and Ethernet have it), bit by bit and by a table of 256 words. Of
# the text 123456789 it is CBF43926, by which each of the two ways is checked.
#
#     ./tclint examples/crc32.tcl
#     ./tclint examples/crc32.tcl "The quick brown fox jumps over the lazy dog" ""

set polynomial 0xEDB88320

# The code of each character of one byte.
for {set i 0} {$i < 256} {incr i} {set code([format %c $i]) $i}

# One byte, eight steps: the plain definition.
proc step {crc} {
    for {set bit 0} {$bit < 8} {incr bit} {
        set crc [expr {$crc & 1 ? ($crc >> 1) ^ $::polynomial : $crc >> 1}]
    }
    return $crc
}

for {set i 0} {$i < 256} {incr i} {lappend table [step $i]}

# The bytes of a text. Its characters must be of one byte each.
proc bytes {text} {
    return [lmap character [split $text {}] {
        if {![info exists ::code($character)]} {error "\"$character\" is no byte"}
        set ::code($character)
    }]
}

proc crc_by_bits {bytes} {
    set crc 0xFFFFFFFF
    foreach byte $bytes {set crc [step [expr {$crc ^ $byte}]]}
    return [expr {~$crc & 0xFFFFFFFF}]
}

# Goes on from the CRC of what came before, so a long text may come in parts.
proc crc_by_table {bytes {crc 0}} {
    set crc [expr {~$crc & 0xFFFFFFFF}]
    foreach byte $bytes {
        set crc [expr {[lindex $::table [expr {($crc ^ $byte) & 0xFF}]] ^ ($crc >> 8)}]
    }
    return [expr {~$crc & 0xFFFFFFFF}]
}

if {$argc == 0} {set argv {123456789 "" a abc "hello, world"}}
set check [bytes 123456789]
foreach way {crc_by_bits crc_by_table} {
    if {[$way $check] != 0xCBF43926} {
        puts stderr [format "%s: %08X in place of CBF43926" $way [$way $check]]
        exit 1
    }
}
puts "check value CBF43926: ok"
foreach text $argv {
    if {[catch {bytes $text} bytes]} {
        puts stderr "crc32.tcl: $bytes"
        exit 2
    }
    set crc [crc_by_table $bytes]
    puts [format "%08X  %3d bytes  %s" $crc [llength $bytes] $text]
    set middle [expr {[llength $bytes] / 2}]
    set part [crc_by_table [lrange $bytes 0 [expr {$middle - 1}]]]
    if {$crc != [crc_by_bits $bytes] || $crc != [crc_by_table [lrange $bytes $middle end] $part]} {
        puts stderr "crc32.tcl: the ways differ"
        exit 1
    }
}

# a kilobyte, and what one wrong bit does
set block {}
for {set i 0} {$i < 1024} {incr i} {lappend block [expr {($i * 7 + $i / 32) & 0xFF}]}
puts [format "%08X  a block of %d" [crc_by_table $block] [llength $block]]
lset block 512 [expr {[lindex $block 512] ^ 0x10}]
puts [format "%08X  with bit 4 of byte 512 turned" [crc_by_table $block]]
