"""Templates of commands over values.

In a template these stand for what is chosen at random:

    @list @dict @text @number @any   the name of a variable that the command changes: @base is none that is a link, @same the last one,
                                     and any other name itself
    %l %d %s %n %v                   a word that is a list, a dictionary, a text, a number, any value: a variable, a literal or a command
    %q %o %m                         the same, to stand in quotes, as an operand, as an operand that is a number
    %i %k %p %t                      an index, a key, a pattern, characters at which a text is split
    %c %h                            how often something comes, how deep it nests
    %b %w                            a body, and one that is left behind a few turns

Where a kind is wanted, there is a value of any other kind now and then. « » stand round each value that is stored or passed.
"""
import re


def templates(text):
    """The templates of a text: between newlines, and semicolons that don't stand in braces."""
    return tuple(template.strip() for template in re.split(r";(?![^{]*\})|\n", text) if template.strip())


# What makes a value.
LISTS = templates("""
    [list %v %v]; [list %v]; [list %v %v %v]; [list %v {*}%l]; [lrange %l %i %i]; [linsert %l %i %v]; [linsert %l %i %v %v]
    [lreplace %l %i 2 %v]; [lreplace %l 1 %i]; [lreplace %l end %i %v]; [concat %l %l]; [concat %v %l %v]; [lrepeat %c %v]; [lrepeat %c %v %v]; [lrepeat 17 %v]
    [lsort %l]; [lsort -decreasing %l]; [lsort -unique %l]; [lreverse «[list {*}%l]»]; [split %s]; [split %s {}]; [split %s %t]; [split %s %t]
    [lmap x %l {list «$x» k}]; [lmap x «[lrange %l 0 3]» {list %v «$x»}]; [lmap {x y} %d {set y}]; [lsearch -all -inline %l %p]
    [lsearch -all %l %v]; [dict keys %d]; [dict values %d]; [lassign %l @x @y]; [nest %v %h]; [rest %v %l %v]; [lindex %l %i]
""")
DICTIONARIES = templates("""
    [dict create %k %v %k %v]; [dict create %k %d]; [list %k %v %k %v]; [dict merge {} {*}«[list %d %d]»]; [dict merge {} {*}«[list %d %d %d]»]
    [dict replace %d %k %v]; [dict remove %d %k]; [dict get %d %k]; [lrange %d 0 1]; [concat %d %d]; [array get v l]; [tower %v %h]
    [linsert %d 0 %k %v]; [lreplace %d 1 1 %v]; [dict create {*}%d %k %v]; [dict replace %d {*}%d]; [lindex %l %i]; [list k %v %k %v k %v]
    [list k %v k %v]; [linsert %d end k %v]; [lrepeat 2 k %v]; [lrepeat 9 %k %v]; [lreplace %d 0 0 k]
    [list %k %v 1 a 2 b 3 c 4 d 5 {} 6 %v 7 {k 1} q %v]; [list k %d 1 a 2 b 3 c 4 d 5 {} 6 %v 7 {k 1} q %d]
""")
TEXTS = templates("""
    [string range %s %i %i]; [string range %s 0 end-1]; [string index %s %i]; [string replace %s 0 %i %v]; [string replace %s %i end %v]
    [string replace %s 1 1]; [string map «{a b k {q q}}» %s]; [string map «[list %k %v]» %s]; [string map %d %s]; [string repeat %s %c]
    [string reverse %s]; [string trim %s]; [string trim %s %t]; [join %l]; [join %l %t]; [format %%s %s]; [format {%%s %%s} %s %v]
    "%q-%q"; "%q%q"; "a %q"; "%q "; [lindex %l %i]; [dict get %d %k]; [append @text %v]
""")
NUMBERS = templates("""
    [llength %l]; [string length %s]; [dict size %d]; [expr {%m + 1}]; [expr {%m & 4095}]; [expr {%m}]; [expr {%m < %m}]; [expr {%o == %m}]
    [lindex %l %i]; [lsearch %l %v]; [string first %v %s]; [format %%d %n]; [format %%03d %n]; [string is wideinteger %v]; [incr @number]
""")
ANY = templates("""
    [lindex %l %i]; [lindex %l %i %i]; [lindex %l {%i %i}]; [dict get %d %k]; [dict get %d %k %k]; [change %v %v]; [change %v]; [rest %v %v]
    [if {%o eq %o} {set @x %v} else {list %v}]; [eval «[list list %v %v]»]; [eval list %l]; [switch -- %v %v {list %v} default {list %l}]
    [apply {{x y} {lappend x «$y»; list «$y» «$x»}} %v %v]; [expr {%m ? %o : %o}]; [join «[list %v %v]» {}]; [lset @list %i %v]
    [dict set @dict %k %v]; [lindex %l {*}«[lrepeat %h 0]»]; [dict get %d {*}«[lrepeat %h k]»]; [set @any %v]; [lappend @list %v]
""")
VALUES = {"l": LISTS, "d": DICTIONARIES, "s": TEXTS, "n": NUMBERS, "v": ANY}

# What changes variables.
CHANGES = templates("""
    set @list %l; set @dict %d; set @text %s; set @number %n; set @any %v; append @text %v; append @text %v %s; append @any %v; append @number 0
    lappend @list %v; lappend @list %v; lappend @list %v %v; lappend @list %l %d; lappend @dict %k %v; lappend @any %v; lappend @list {*}%l
    lset @list %i %v; lset @list end %i %v; lset @list {end-1 %i} %v; lset @list end+1 %v; lset @list 0 %v; lset @list 0 0 %v; lset @any %v
    lset @list {*}«[lrepeat %h 0]» %v; dict set @dict {*}«[lrepeat %h k]» %v; incr @number; incr @number 5; incr @number -1; incr @any
    dict set @dict %k %v; dict set @dict %k %v; dict set @dict %k %k %v; dict set @dict %k %k %k %v; dict unset @dict %k; dict unset @dict %k %k
    dict append @dict %k %v; dict append @dict %k %s %v; dict append @dict k a; dict lappend @dict %k %v; dict lappend @dict %k %v %v
    dict lappend @dict k %v; dict incr @dict n; dict incr @dict n 7; dict set @any %k %v; dict lappend @any k %v; dict append @any %k %v
    lassign %l @any @any; lassign %v @any @any @any; set @list [lassign %l @any]; array set @v «[list l %v n %n]»; array set @v %d
    foreach @any %l {%w}; foreach {@any @any} %d {%w}; foreach @any %l @any %l {%w}; dict for {@any @any} %d {%w}
    foreach @x «{1 2 3}» {%b}; foreach @x «{1 2}» {%b}; for {set i 0} {$i < 3} {incr i} {%b}; if {%o eq %o} {%b} else {%b}
    set @list [lreplace «$@same»[set @same {}] 1 %i %v]; set @list [linsert «$@same»[set @same {}] end %v]; set @any «$@any»[set @same {}]
    set @list [concat «$@same»[set @same {}] %l]; set @dict [dict replace «$@same»[set @same {}] %k %v]
    set @list [lrange «$@same»[set @same {}] %i %i]; alias @any %v; alias @any %v; grow @list %v; grow @list %v; put @dict %k %v; put @dict %k %v
    set @any [change %v %v]; upvar 0 @base @w; lappend @list «$@same»; lappend @list «$@same» «$@same»; dict set @dict %k «$@same»
    dict lappend @dict %k «$@same»; set @list [list «$@same» %v «$@same»]; append @any «$@same»; dict append @dict %k «$@same»
    lset @list 0 «$@same»; eval «[list lappend @list %v]»; eval {lappend @list %v}; eval %l; uplevel 0 «[list set @any %v]»
    eval «[list dict set @dict %k %v]» {}; foreach name {@any @any} {append «$name» %v}; foreach name {@list @any} {lappend «$name» %v}
    foreach name {@dict @any} {dict set «$name» %k %v}; dict unset @dict q q; dict unset @dict k q q; dict set @dict k k %v
    set @dict [list k %v k %v]; set @dict [list %k %v %k %v]; set @dict [list %k %v 1 a 2 b 3 c 4 d 5 {} 6 %v 7 {k 1} q %v]; set @list [lrepeat 5 %v a %k b]
""")

# What puts values into several variables, and into one another.
SHARES = templates("""
    set @any %v; set @any %v; set @list %l; set @dict %d; lappend @list %v; dict set @dict %k %v; set @v(l) %v; set @any [list %v %v]
    foreach @any «[list %v %v]» {}; lassign «[list %v %v]» @any @any; array set @v «[list l %v n %v]»; set @any [set @any %v]
    upvar 0 @base @w; lset @list 0 %v; set @any [lindex «[list %v]» 0]; set @any [dict create k %v q %v]; set @any [lrepeat 3 %v]
    dict lappend @dict k %v; set @x %v; set @y %v; set @any [rest %v %v %v]
""")

# What reads values.
READS = templates("""
    llength %v; llength %v; lindex %v %i; lindex %v %i %i; lindex %v %i; lrange %v %i %i; lindex %v {}; lindex %v; dict size %v; dict size %v
    dict get %v %k; dict get %v %k; dict get %v %k %k; dict exists %v %k; dict exists %v %k %k; dict keys %v; dict values %v; dict get %v
    string length %v; string length %v; string index %v %i; string range %v %i %i; string first %s %v; string last %t %v; string repeat %v %c
    string is list %v; string is wideinteger %v; string equal %v %v; string compare %v %v; string match %p %v; string map %v %v
    expr {%o eq %o}; expr {%o eq %o}; expr {%o ne %o}; expr {%o == %o}; expr {%o != %o}; expr {%o < %o}; expr {%o in %o}; expr {%o ni %o}
    expr {%o + 0}; expr {%o & 255}; expr {%o ? 1 : 0}; expr {!%o}; expr {[string length %v] + [llength %v]}; if {%o in %o} {list in} else {list out}
    lsearch -exact %v %v; lsearch %v %p; lsearch -all -not -exact %v %v; join %v ,; lsort %v; lsort -integer %v; lsort -unique -integer %v
    format %%d %v; format %%s, %v; total %v; pairs %v; lreverse «[lrange %v 0 end]»; concat %v %v; split %v; llength «[split %v {}]»
    join «[split %v {}]» {}; switch -- %v %v {list same} default {list other}; llength «[concat %v %v]»; array size v; info exists v(k)
    dict merge {} {*}«[list %v %v]»; set v(l); foreach {@x @y} %v {break}; lassign %v @x @y; dict for {@x @y} %v {break}; return %v; error %v
    lset @v(l) 0 0 %v; incr @n; dict incr @d n; list {*}%v; dict create {*}%v; list %v; list %v %v; lsort [array names v]; linsert %v 0 %v
    lreplace %v 0 0 %v; lrange %v 0 end; dict replace %v %k %v
""")

# What tclsh does otherwise, or may come upon what it does otherwise (docs/PROFILE.md).
OWN_CHANGES = templates("""
    incr @number 9223372036854775807; unset @any; unset -nocomplain @any; array unset @v %k; lset @list %i %i %v; lset @list {%i %i %i} %v
    lset @list end+1 0 %v; dict incr @dict %k; dict incr @dict %k %n; incr @number %n; lappend @any; dict lappend @dict %k; dict append @dict %k
    lset @list %n %v; set @list [lreplace «$@same»[set @same {}] %i %i %v]
""")
OWN_READS = templates("""
    string toupper %v; string tolower %v; string is integer %v; string is boolean %v; lreverse %v; string is space %v; dict merge %v
    dict merge %v %v; string replace %v %i %i %v; expr {%o * %o}; expr {-%o}; string is list -strict %v; lindex %v %v; lindex %v %n
    string index %v %n; string range %v %n end; array get v
""")
