"""Scripts that grow without end, in little memory and in much: each must end by itself, for want of memory."""
from program import Wrong, by_shell, shown, write

MEGABYTES = [8, 16, 32, 64, 96, 128, 192, 256, 512, 1024]
SMALL = MEGABYTES[:4]

# a piece is a two-thousandth of the memory, so that each script ends within seconds
HEAD = "puts a; set p [string repeat 0123456789 [expr {[lindex $argv 0] * 1048576 / 20000}]]\n"

# in all sizes
SCRIPTS = {
    "text": "set s abcdefgh; while 1 {append s $s}",
    "text-by-pieces": "while 1 {append s $p}",
    "list": "set l {a b c d}; while 1 {lappend l {*}$l}",
    "lists-in-one-another": "set x {a b}; while 1 {set x [list $x $x $x $x]}",
    "dictionary": "while 1 {dict set d [incr i] $p$i}",
    "array": "while 1 {set a([incr i]) $p$i}",
    "procedures": "while 1 {proc p[incr i] {} $p$i}",
    "frames": "proc f {} {set x [string repeat $::p 4]; f}; f",
    "frames-by-uplevel": "proc f {} {set x [string repeat $::p 8]; uplevel 1 f}; f",
    "code": 'set s "set x {$p};"; while 1 {append s $s$s$s; eval $s}',
}
# in small sizes
MORE = {
    "text-in-quotes": 'set s ab; while 1 {set s "$s$s"}',
    "list-of-texts": "while 1 {lappend l $p[incr i]}",
    "list-of-numbers": "while 1 {lappend l [incr i]}",
    "dictionaries-in-one-another": "set d {k {}}; while 1 {set d [dict create a $d b $d]}",
    "dictionary-of-numbers": "while 1 {dict set d [incr i] $i}",
    "array-of-numbers": "while 1 {set a([incr i]) $i}",
    "array-by-lists": "set a(0) 1; while 1 {foreach {k v} [array get a] {set a([incr i]) $v}}",
    "variables": "while 1 {set v[incr i] $p$i}",
    "links": "proc f {} {while 1 {upvar #0 a b[incr i]}}; f",
    "frames-by-apply": "set l {{} {set x [string repeat $::p 4]; apply $::l}}; apply $l",
    "frames-of-arguments": "proc f {args} {f {*}$args {*}$args}; f a b",
    "code-behind-an-error": 'set s {set x 1;}; while 1 {append s $s; catch {eval "error x; $s"}}',
    "code-of-a-procedure": "set s {set x 1;}; while 1 {append s $s; proc f {} $s; f}",
    "code-of-procedures": 'while 1 {proc f[incr i] {} "set x {$p$i}"; f$i}',
    "code-of-commands": "set s {set x 1;}; while 1 {append s $s; eval $s}",
    "code-of-words": 'set s {a b }; while 1 {append s $s; eval "list $s"}',
    "code-of-parts": 'set s {$x$x}; set x 1; while 1 {append s $s; eval "set y $s"}',
    "expression": "set s 1; while 1 {append s +$s; expr $s}",
    "split": "set s ab; while 1 {append s $s; split $s {}}",
    "format": "set n 1; while 1 {incr n $n; format %*d $n 1}",
    "lrepeat": "set n 1; while 1 {incr n $n; lrepeat $n ab}",
    "repeat": "set n 1; while 1 {incr n $n; string repeat ab $n}",
    "map": "set s ab; while 1 {set s [string map {a ab b ba} $s]}",
    "sort": "set l {b a}; while 1 {set l [concat $l $l]; lsort $l}",
    "lmap": "set l {a b}; while 1 {set l [concat $l [lmap x $l {string repeat $x 2}]]}",
    "message": "set s x; while 1 {append s $s; catch {error $s} m o}",
    "name-of-no-command": "set s x; while 1 {append s $s; catch {$s} m o}",
    "input": "read stdin",
    "line-of-input": "gets stdin",
}
ZEROS = "/dev/zero"
MEMORY = b"out of memory\n"


def run_limited(tested, room, size, words, beginning):
    """Runs the program in so many megabytes, over an input without end."""
    by = by_shell(f'ulimit -v {size * 1024}; exec "$0" "$@" <{ZEROS}')
    got = tested.run(words, room, by=by)
    if (got.status, got.stderr) != (3, MEMORY) or not beginning.startswith(got.stdout):
        raise Wrong(f"status {got.status}, stdout {shown(got.stdout)}, stderr {shown(got.stderr)}")


def limits(tested, room):
    """The tests, each with its name, from the one that takes longest."""
    found = []
    for size in reversed(MEGABYTES):
        scripts = SCRIPTS | MORE if size in SMALL else SCRIPTS
        for name, text in scripts.items():
            file = f"{name}.tcl"
            write(room, HEAD + text + "\n", file)
            found.append((f"limits/{name}-in-{size}-MB", size, [file, str(size)], b"a\n"))
        found.append((f"limits/file-in-{size}-MB", size, [ZEROS], b""))
        found.append((f"limits/session-in-{size}-MB", size, [], b"% "))

    def test(size, words, beginning):
        return lambda: run_limited(tested, room, size, words, beginning)

    return [(name, test(*how)) for name, *how in found]
