"""Checks of scripts at the edge, of great sizes, and of standard input."""
import os

from program import IO_FAULT, Wrong, by_shell, check, expect, run_by_bytes, run_text, shown, write


def text_check(name, text, stdout, status=0, stderr=b""):
    @check(f"text/{name}")
    def _(tested, room):
        made = text() if callable(text) else text
        expect(run_text(tested, room, made), status, stdout() if callable(stdout) else stdout, stderr)


MANY = 100_000
LONG = 10_000_000
A_LONG_WORD = b"a" * LONG
WRONG_SET = b'wrong # args: should be "set varName ?newValue?"\n'

text_check("empty", b"", b"")
text_check("newline-alone", b"\n", b"")
text_check("comment-alone", b"# puts no", b"")
text_check("no-last-newline", b"puts a", b"a\n")
text_check("nul", b"puts a\0b\n\0\n", b"a\0b\n", 1, b'invalid command name "\0"\n')
text_check("many-words", lambda: b"set" + b" x" * MANY + b"\n", b"", 1, WRONG_SET)
text_check("many-words-put", lambda: b"puts a\nputs" + b" x" * MANY, b"a\n", 1, b'wrong # args: should be "puts ?-nonewline? ?channelId? string"\n')
text_check("many-commands", lambda: b"set x 1;" * MANY + b"puts $x", b"1\n")
text_check("many-separators", lambda: b";\n" * MANY + b"puts a", b"a\n")
text_check("many-comments", lambda: b"# [ { \"\n" * MANY + b"puts a", b"a\n")
text_check("many-variables", lambda: b"".join(b"set v%d %d\n" % (i, i) for i in range(MANY)) + b"puts $v7$v99999", b"799999\n")
text_check("many-elements", lambda: b"".join(b"set v(%d) %d\n" % (i, i) for i in range(MANY)) + b"puts ${v(7)}${v(99999)}", b"799999\n")
text_check("many-pieces", lambda: b"set x a\nputs " + b"$x\\x62" * MANY, lambda: b"ab" * MANY + b"\n")
text_check("many-lines-put", lambda: b"puts abc\n" * MANY, lambda: b"abc\n" * MANY)
text_check("long-word", lambda: b"puts " + A_LONG_WORD, lambda: A_LONG_WORD + b"\n")
text_check("long-quoted-word", lambda: b'set x "' + A_LONG_WORD + b'"\nputs "<$x>"', lambda: b"<" + A_LONG_WORD + b">\n")
text_check("long-braced-word", lambda: b"puts {" + A_LONG_WORD + b"}", lambda: A_LONG_WORD + b"\n")
text_check("long-name", lambda: b"set " + A_LONG_WORD + b" 1\nputs $" + A_LONG_WORD, b"1\n")
text_check("long-unknown-name", lambda: A_LONG_WORD, b"", 1, b'invalid command name "' + A_LONG_WORD + b'"\n')
NESTED = b"""if {$i < 3} {while {$i < 3} {foreach \xc3\xa9 {\xc3\xa4 "\xc3\xb6 \xc3\xbc"} {incr i 2; set k ${\xc3\xa9}}}}
"""
SHOWS = b"""proc while args {puts [list while {*}$args]; uplevel 1 {set i 3}}
set i 0
"""
SHOWN = "ö ü".encode() + b"\n" + b"while {$i < 3} {foreach \xc3\xa9 {\xc3\xa4 \"\xc3\xb6 \xc3\xbc\"} {incr i 2; set k ${\xc3\xa9}}}\n"
text_check("calls-inside-a-call-of-a-long-text", lambda: b"# " + b"x" * 70_000 + b"\nset i 0\n" + NESTED + b"puts $k\n" + SHOWS + NESTED, SHOWN)
text_check("long-comment", lambda: b"# " + A_LONG_WORD + b"\nputs a", b"a\n")
text_check("braces-in-one-another", lambda: b"puts " + b"{" * MANY + b"}" * MANY, lambda: b"{" * (MANY - 1) + b"}" * (MANY - 1) + b"\n")
text_check("braces-left-open", lambda: b"puts a\nputs " + b"{" * LONG, b"a\n", 1, b"missing close-brace\n")
text_check("backslashes", lambda: b"puts " + b"\\\\" * MANY, lambda: b"\\" * MANY + b"\n")
text_check("brackets-left-open", lambda: b"puts a\nputs " + b"[" * MANY, b"a\n", 1, b"nesting too deep\n")

# ---- whole programs, at the edge

text_check("many-turns", b"set s 0; for {set i 0} {$i < 100000} {incr i} {incr s $i}; puts $s", b"4999950000\n")
A_LONG_BODY = b"incr n;" * (LONG // 70)  # a megabyte
text_check("long-body-of-while", lambda: b"set i 0; while {[incr i] < 3} {" + A_LONG_BODY + b"}; puts $n", b"285714\n")
text_check("long-body-of-for", lambda: b"for {set i 0} {$i < 2} {incr i} {" + A_LONG_BODY + b"}; puts $n", b"285714\n")
text_check("long-next-of-for", lambda: b"for {set i 0} {$i < 2} {incr i;" + A_LONG_BODY + b"} {puts $i}; puts $n", b"0\n1\n285714\n")
text_check("long-body-of-foreach", lambda: b"foreach x {1 2} {if {$x} {" + A_LONG_BODY + b"}}; puts $n", b"285714\n")
text_check("long-body-malformed", lambda: b"while 1 {" + A_LONG_BODY + b"puts $n; puts {", b"", 1, b"missing close-brace\n")
text_check("long-body-that-fails", lambda: b"while 1 {" + A_LONG_BODY + b"puts $n; set x \"a\"b}", b"142857\n", 1, b"extra characters after close-quote\n")
# A code of many instructions is found valid part by part: branches, loops and brackets stand across many such parts. Each line adds two, but the first three.
BRANCHES = b"incr s; if {$s > 3} {incr s} else {incr s [expr {1 + 1}]}\n" * 20_000
LEAVES = b"while {1} {if {$s > 60000} {break}; incr s}\n"
text_check("branches-in-many-parts", lambda: b"set s 0\n" + BRANCHES + LEAVES + b"puts $s", b"60001\n")
text_check("branches-in-a-long-procedure", lambda: b"proc f s {" + BRANCHES + b"puts $s\n" + LEAVES + b"return $s}\nputs [f 0],[f 60000]", b"40001\n100000\n60001,100000\n")
text_check("fault-behind-many-parts", lambda: b"set s 0\n" + BRANCHES + b"puts $s; break; puts no", b"40001\n", 1, b'invoked "break" outside of a loop\n')
text_check("many-list-elements", b"for {set i 0} {$i < 100000} {incr i} {lappend l $i}; puts [llength $l],[lindex $l end]", b"100000,99999\n")
text_check("many-keys", b"for {set i 0} {$i < 20000} {incr i} {dict set d k$i $i}; puts [dict size $d],[dict get $d k19999]", b"20000,19999\n")
text_check("many-array-elements", b"for {set i 0} {$i < 100000} {incr i} {set a($i) $i}; puts [array size a],$a(99999)", b"100000,99999\n")
text_check("many-pieces-appended", b"for {set i 0} {$i < 100000} {incr i} {append s ab}; puts [string length $s]", b"200000\n")
text_check("many-sorted", b"for {set i 0} {$i < 50000} {incr i} {lappend l [expr {$i * 7919 % 50000}]}; puts [lindex [lsort -integer $l] 49999]", b"49999\n")
text_check("many-operands", lambda: b"puts [expr {" + b"1+" * (MANY - 1) + b"1}]", b"100000\n")
text_check("many-elements-given", lambda: b"puts [llength {" + b"ab " * MANY + b"}]", b"100000\n")
text_check("lists-in-one-another", b"set x {a b}; for {set i 0} {$i < 1000} {incr i} {set x [list $x]}; puts [string length $x]", b"2003\n")
text_check("lists-shared", b"set x {}; for {set i 0} {$i < 20} {incr i} {set x [list $x $x]}; puts [string length $x]", b"5242875\n")
text_check("calls-in-one-another", b"proc f n {if {$n == 0} {return 0}; expr {1 + [f [expr {$n - 1}]]}}; puts [f 300]", b"300\n")
TOO_DEEP = b"too many nested evaluations (infinite loop?)\n"
text_check("calls-without-end", b"puts a; proc f n {f $n}; f 1", b"a\n", 1, TOO_DEEP)
text_check("pattern-of-stars", lambda: b"puts [string match " + b"*a" * 30 + b"b " + b"a" * 60 + b"]", b"0\n")

# ---- input


def input_check(name, text, stdin, stdout):
    @check(f"input/{name}")
    def _(tested, room):
        expect(run_text(tested, room, text, stdin=stdin), 0, stdout)

    @check(f"input/{name}-by-bytes")
    def _(tested, room):
        expect(run_by_bytes(tested, room, [write(room, text)], stdin), 0, stdout)


input_check("lines", "while {[gets stdin l] >= 0} {puts <$l>}; puts [eof stdin]", b"a\r\nb", b"<a>\n<b>\n1\n")
input_check("some-characters", "puts [read stdin 3][eof stdin]", b"abcd", b"abc0\n")
input_check("more-characters", "puts [read stdin 9][eof stdin]", b"abcd", b"abcd1\n")
input_check("ill-formed", "puts [gets stdin]", b"\xff\n", b"\xef\xbf\xbd\n")
input_check("ill-formed-parts", "puts [string length [gets stdin]]", b"\xe2\x82A\xf0\x80\x80\n", b"5\n")
input_check(
    "past-ascii",
    "puts [gets stdin]|[read stdin 2]|[read stdin]",
    "a\u00e9\u20ac\U0001f600\n\u00fc\u20acx\r\n".encode(),
    "a\u00e9\u20ac\U0001f600|\u00fc\u20ac|x\n\n".encode(),
)


@check("input/many-lines")
def _(tested, room):
    text = "set n 0; while {[gets stdin l] >= 0} {incr n [string length $l]}; puts $n"
    expect(run_text(tested, room, text, stdin=b"abcdefghi\n" * MANY), 0, b"900000\n")


@check("input/line-is-answered")
def _(tested, room):
    # the input goes on: a line that is there must be enough
    started = tested.start([write(room, "puts [gets stdin]; gets stdin l; puts end")], room)
    os.write(started.stdin.fileno(), b"abc\n")
    answer = os.read(started.stdout.fileno(), 100)
    expect(tested.end(started), 0, b"end\n")
    if answer not in (b"abc\n", b"abc"):
        raise Wrong(f"the answer: {shown(answer)}")


@check("input/folder")
def _(tested, room):
    folder = by_shell('exec "$0" "$@" <.')
    expect(run_text(tested, room, "puts a; catch {gets stdin l}; puts b", by=folder), 4, b"a\n", IO_FAULT)
