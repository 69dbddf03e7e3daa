# Records as dictionaries: a parts list is grouped by a key, sorted by totals and by names, filtered and summed up.
#
#     ./tclint examples/records.tcl                   by kind
#     ./tclint examples/records.tcl supplier 1000     by supplier, those of 10.00 and more

# Part, kind, supplier, count, price in cents.
set names {part kind supplier count cents}
set rows {
    {R 10k}      resistor   Nordic  120    2
    {R 4k7}      resistor   Nordic   80    2
    {C 100n}     capacitor  Helio   200    4
    {C 10u}      capacitor  Helio    24   19
    {MCU 48}     logic      Arkos     3  475
    {SRAM 1M}    logic      Arkos     6  310
    {Quartz 8M}  clock      Nordic    3   41
    {LDO 3V3}    power      Helio     6   88
}

# Each row as a dictionary with its own total.
set records {}
foreach $names $rows {
    set record [dict create]
    foreach name $names {dict set record $name [set $name]}
    dict set record total [expr {$count * $cents}]
    lappend records $record
}

# Cents as whole numbers with two digits behind the point.
proc money {cents} {
    return [format "%d.%02d" [expr {$cents / 100}] [expr {$cents % 100}]]
}

# The records of each value of a key.
proc group_by {key records} {
    set groups [dict create]
    foreach record $records {dict lappend groups [dict get $record $key] $record}
    return $groups
}

# The sum of a field.
proc total {field records} {
    set sum 0
    foreach record $records {incr sum [dict get $record $field]}
    return $sum
}

# Sorts by a number, the largest first, and then by a text: each item gets a key in front that sorts as a text.
proc by_number {items number text} {
    set keyed {}
    foreach item $items {
        lappend keyed [list [format %012d [expr {999999999999 - [apply $number $item]}]] [apply $text $item] $item]
    }
    return [lmap entry [lsort $keyed] {lindex $entry end}]
}

lassign $argv key least
if {$key eq ""} {set key kind}
if {$key ni $names} {
    puts stderr "records.tcl: no field \"$key\": [join $names ", "]"
    exit 2
}
if {$least eq ""} {set least 0}

set groups [group_by $key $records]
set sum 0
foreach value [by_number [dict keys $groups] {{g} {total total [dict get $::groups $g]}} {{g} {set g}}] {
    set members [dict get $groups $value]
    set cents [total total $members]
    if {$cents < $least} continue
    puts [format "%-12s %2d parts %5d pieces %9s" $value [llength $members] [total count $members] [money $cents]]
    foreach record [by_number $members {{r} {dict get $r total}} {{r} {dict get $r part}}] {
        puts [format "    %-12s %5d x %6s = %9s" [dict get $record part] [dict get $record count] \
            [money [dict get $record cents]] [money [dict get $record total]]]
    }
    incr sum $cents
}
puts [format "%-34s %9s" all [money $sum]]
puts "dearest piece: [dict get [lindex [by_number $records {{r} {dict get $r cents}} {{r} {dict get $r part}}] 0] part]"
