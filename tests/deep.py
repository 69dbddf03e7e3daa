#!/usr/bin/env python3
"""Checks of scripts, expressions and lists that nest deep, on a stack of 1 MiB and on one of 8 MiB, and values on one of 256 KiB.

    tests/deep.py     these checks alone; tests/run runs them with all others

A script has depth 1, each script that a command or a bracket of it runs is one deeper, and one of depth 1001 is an
error (docs/PROFILE.md, What a run costs). What is expected is reckoned from that rule and from the 200 levels of a text.
"""
import os
import sys

sys.dont_write_bytecode = True

from program import SECONDS, Program, Wrong, by_shell, check, checks, expect, write
from run_checks import judged

STACKS = (1024, 8192)  # KiB
SMALLEST = (256,)
DEEPEST = 1000
LEVELS = 200
MILLION = 1_000_000
MANY = 100_000
LONG = 900  # seconds
TOO_DEEP = "too many nested evaluations (infinite loop?)"
TOO_NESTED = "nesting too deep"


def run_on(tested, room, size, words, stdin):
    return tested.run(words, room, stdin, by=by_shell(f'ulimit -s {size}; exec "$0" "$@"'))


def deep_check(name, text, answer, fault=None, stacks=STACKS, options=(), status=None, seconds=SECONDS):
    """A script that puts an answer, and ends with a fault if one is named, on each stack."""

    @check(f"deep/{name}")
    def _(tested, room):
        patient = Program(tested.path, seconds=seconds)
        words = [*options, write(room, text() if callable(text) else text)]
        wanted = f"{answer}\n".encode() if answer is not None else b""
        ends = status if status is not None else 1 if fault else 0
        for size in stacks:
            try:
                got = run_on(patient, room, size, words, b"")
                expect(got, ends, wanted, f"{fault}\n".encode() if fault else b"")
            except Wrong as what:
                raise Wrong(f"on a stack of {size} KiB: {what}") from None


def session_check(name, texts, wanted, fault):
    """Texts of a session, of which the last ends with a fault, on the smaller stack."""

    @check(f"deep/{name}")
    def _(tested, room):
        expect(run_on(tested, room, STACKS[0], [], texts.encode()), 0, wanted.encode(), f"{fault}\n".encode())


# ---- each command that runs a script, in itself without end

# Name, the script that runs itself, how many levels deeper it is each time.
AGAIN = [
    ("eval", "eval $s", 1),
    ("eval-of-words", "eval eval {$s}", 2),
    ("if", "if 1 $s", 1),
    ("elseif", "if 0 {} elseif 1 $s", 1),
    ("else", "if 0 {} else $s", 1),
    ("while", "while 1 $s", 1),
    ("for-start", "for $s 1 {} {}", 1),
    ("for-next", "for {} 1 $s {}", 1),
    ("for-body", "for {} 1 {} $s", 1),
    ("if-called", "::if 1 $s", 1),
    ("while-called", "::while 1 $s", 1),
    ("for-called", "::for {} 1 {} $s", 1),
    ("foreach-called", "::foreach x 1 $s", 1),
    ("foreach", "foreach x 1 $s", 1),
    ("lmap", "lmap x 1 $s", 1),
    ("foreach-of-two", "foreach x 1 y 1 $s", 1),
    ("switch", "switch a a $s", 1),
    ("switch-of-a-list", "switch -glob ab [list a* $s]", 1),
    ("switch-default", "switch a b {} default $s", 1),
    ("switch-that-falls-through", "switch a {a - b {eval $s}}", 2),
    ("try", "try $s", 1),
    ("try-on", "try {error x} on error {} $s", 1),
    ("try-trap", "try {throw a x} trap a {} - on ok {} $s", 1),
    ("try-finally", "try {} finally $s", 1),
    ("try-finally-behind-an-error", "try {error x} finally $s", 1),
    ("eval-by-expansion", "{*}[list eval $s]", 1),
    ("dict-for", "dict for {k v} {a 1} $s", 1),
    ("uplevel", "uplevel 0 $s", 1),
    ("uplevel-global", "uplevel #0 $s", 1),
    ("uplevel-of-words", "uplevel 0 eval {$s}", 2),
    ("apply", "apply [list {} $::s]", 1),
    ("procedure", "f", 1),
    ("procedure-by-eval", "eval f", 2),
    ("procedure-by-uplevel", "uplevel 1 f", 2),
    ("procedure-in-a-bracket", "set y [f]", 2),
    ("procedure-in-an-expression", "return [expr {1 + [f]}]", 3),
    ("procedure-in-an-expression-in-if", "if 1 {return [expr {1 + [f]}]}", 4),
    ("procedure-in-if", "if 1 {f}", 2),
    ("procedure-in-else", "if 0 {} else {f}", 2),
    ("procedure-in-while", "while 1 {f}", 2),
    ("procedure-in-for", "for {} 1 {} {f}", 2),
    ("procedure-in-for-start", "for {f} 1 {} {}", 2),
    ("procedure-in-for-next", "for {} 1 {f} {}", 2),
    ("procedure-in-foreach", "foreach x 1 {f}", 2),
    ("procedure-in-foreach-of-two", "foreach x 1 y 1 {f}", 2),
    ("procedure-in-the-test-of-while", "while {[f]} {}", 2),
    ("procedure-in-loops", "while 1 {for {} 1 {} {foreach x 1 {if 1 {f}}}}", 5),
    ("bracket", "set y [eval $s]", 2),
    ("bracket-in-quotes", 'set y "a[eval $s]b"', 2),
    ("bracket-in-an-index", "set a([eval $s]) 1", 2),
    ("bracket-that-is-expanded", "list {*}[eval $s]", 2),
    ("bracket-as-a-command", "[eval $s] 1", 2),
    ("bracket-in-an-argument-of-return", "return [eval $s]", 2),
    ("bracket-called", "::set y [eval $s]", 2),
    ("expression", "expr {[eval $s]}", 2),
    ("expression-called", "::expr {[eval $s]}", 2),
    ("quotes-in-an-expression", 'expr {"a[eval $s]"}', 2),
    ("index-in-an-expression", "expr {$a([eval $s])}", 2),
    ("condition-of-if-called", "::if {[eval $s]} {}", 2),
    ("condition-of-while-called", "::while {[eval $s]} {}", 2),
    ("condition-of-if", "if {[eval $s]} {}", 2),
    ("condition-of-elseif", "if 0 {} elseif {[eval $s]} {}", 2),
    ("condition-of-while", "while {[eval $s]} {}", 2),
    ("condition-of-for", "for {} {[eval $s]} {} {}", 2),
    ("argument-of-a-function", "expr {abs([eval $s])}", 2),
    ("left-of-and", "expr {[eval $s] && 1}", 2),
    ("right-of-and", "expr {1 && [eval $s]}", 2),
    ("right-of-or", "expr {0 || [eval $s]}", 2),
    ("condition-of-a-choice", "expr {[eval $s] ? 1 : 0}", 2),
    ("branch-of-a-choice", "expr {1 ? [eval $s] : 0}", 2),
    ("string-of-switch", "switch [eval $s] a {}", 2),
    ("list-of-foreach", "foreach x [eval $s] {}", 2),
    ("list-of-lmap", "lmap x [eval $s] {}", 2),
    ("dictionary-of-dict-for", "dict for {k v} [eval $s] {}", 2),
]


def turns(outside, levels):
    """How many times a script runs that is run at a depth, and in itself so many levels deeper each time."""
    return 1 + (DEEPEST - outside - 1) // levels


for name, again, levels in AGAIN:
    before = f"proc f {{}} {{incr ::n; {again}}}\nset s {{incr ::n; {again}}}\nset n 0\n"
    begin = "f" if name.startswith("procedure") else "eval $s"
    deep_check(f"{name}-without-end", f"{before}puts a\n{begin}\nputs no\n", "a", TOO_DEEP)
    how_deep = f"{before}catch {{{begin}}} m\nputs $n:$m\n", f"{turns(2, levels)}:{TOO_DEEP}"
    deep_check(f"{name}-how-deep", *how_deep)
    # a run that pauses at each unit, one that is dropped where it stands, and a session
    deep_check(f"{name}-in-slices", *how_deep, stacks=STACKS[:1], options=["-slice", "1"])
    dropped = {"stacks": STACKS[:1], "options": ["-budget", "900"], "status": 2}
    deep_check(f"{name}-dropped", f"{before}puts a\n{begin}\nputs no\n", "a", "budget spent", **dropped)
    prompts = f"% % incr ::n; {again}\n% 0\n% a\n% % "
    session_check(f"{name}-in-a-session", f"{before}puts a\n{begin}\n", prompts, TOO_DEEP)

# a catch at each level sees the error of the one below, and goes on
deep_check("catch-how-deep", "set s {incr n; catch $s m; set m}\nputs [eval $s],$n\n", f"{TOO_DEEP},{turns(2, 1)}")
deep_check("twice", "proc f {} {incr ::n; f}\ncatch f\ncatch f m\nputs $n:$m\n", f"{2 * turns(2, 1)}:{TOO_DEEP}")

# ---- each command that takes a script in braces, written in itself

WRITTEN = [
    ("eval", "eval {", "}"),
    ("if", "if 1 {", "}"),
    ("elseif", "if 0 {} elseif 1 {", "}"),
    ("else", "if 0 {} else {", "}"),
    ("while", "while 1 {", ";break}"),
    ("for-start", "for {", "} 0 {} {}"),
    ("for-next", "for {} 1 {", ";break} {}"),
    ("for", "for {} 1 {} {", ";break}"),
    ("if-called", "::if 1 {", "}"),
    ("while-called", "::while 1 {", ";break}"),
    ("for-called", "::for {} 1 {} {", ";break}"),
    ("foreach-called", "::foreach x 1 {", "}"),
    ("foreach", "foreach x 1 {", "}"),
    ("foreach-of-two", "foreach x 1 y 1 {", "}"),
    ("lmap", "lmap x 1 {", "}"),
    ("switch", "switch a {a {", "}}"),
    ("switch-of-words", "switch a a {", "}"),
    ("switch-default", "switch b {a {} default {", "}}"),
    ("try", "try {", "}"),
    ("try-on", "try {error x} on error {} {", "}"),
    ("try-trap", "try {throw a x} trap a {} {", "}"),
    ("try-finally", "try {} finally {", "}"),
    ("dict-for", "dict for {k v} {a 1} {", "}"),
    ("uplevel", "uplevel 0 {", "}"),
    ("apply", "apply {{} {", "}}"),
    ("catch", "catch {", "}"),
]


def written(opener, closer, levels):
    """A script that puts a where it stands so many levels below the file's."""
    return opener * levels + "puts a" + closer * levels + "\n"


for name, opener, closer in WRITTEN:
    deep_check(f"{name}-written-{DEEPEST - 1}-deep", written(opener, closer, DEEPEST - 1), "a")
    # the error that catch sees is no error of the script
    fault = None if name == "catch" else TOO_DEEP
    deep_check(f"{name}-written-{DEEPEST}-deep", written(opener, closer, DEEPEST), None, fault)


def calls(count):
    """Procedures of which each calls the next."""
    return "".join(f"proc p{i} {{}} p{i + 1}\n" for i in range(count)) + f"proc p{count} {{}} {{puts a}}\np0\n"


deep_check("procedures-of-their-own", calls(DEEPEST - 2), "a")
deep_check("one-procedure-too-many", calls(DEEPEST - 1), None, TOO_DEEP)

# ---- nesting within one text


def parentheses(count, inside):
    return "(" * count + inside + ")" * count


def expressions(times):
    """An expression 199 parentheses deep, and in a bracket there another, so many times."""
    text = parentheses(LEVELS, "1")
    for _ in range(times):
        text = parentheses(LEVELS - 1, "[expr {" + text + "}]")
    return text


# Name, what comes before, the opener, what is inside, the closer: 200 are right, and 201 are too deep.
NESTED = [
    ("expression", "puts [expr {", "(", "7", ")", "}]"),
    ("expression-of-signs", "puts [expr {", "- ", "7", "", "}]"),
    ("expression-of-complements", "puts [expr {", "~", "7", "", "}]"),
    ("expression-of-calls", "puts [expr {", "max(1, ", "7", ")", "}]"),
    ("expression-of-powers", "puts [expr {6 + ", "1**", "7", "", "}]"),
    ("expression-of-choices", "puts [expr {", "0 ? 1 : ", "7", "", "}]"),
    ("expression-of-choices-in-choices", "puts [expr {", "1 ? ", "7", " : 0", "}]"),
    ("brackets", "puts ", "[set x ", "7", "]", ""),
    ("brackets-of-concat", "puts ", "[concat ", "7", "]", ""),
    ("brackets-in-quotes", "puts ", '"[set x ', "7", ']"', ""),
    ("brackets-that-are-expanded", "puts ", "[set x {*}", "7", "]", ""),
    ("brackets-in-an-expression", "puts [expr {", "[set x ", "7", "]", "}]"),
    ("brackets-in-quotes-in-an-expression", "puts [expr {", '"[set x ', "7", ']"', "}]"),
    ("brackets-in-a-condition", "if {", "[set x ", "7", "]", "} {puts 7}"),
    ("indices-in-an-expression", "set a(7) 7; puts [expr {", "$a(", "7", ")", "}]"),
    ("indices", "set a(7) 7; puts ", "$a(", "7", ")", ""),
    ("indices-in-quotes", 'set a(7) 7; puts "', "$a(", "7", ")", '"'),
]


def nested(before, opener, inside, closer, after, count):
    """A script in which so many levels stand in one another."""
    return before + opener * count + inside + closer * count + after + "\n"


for name, *parts in NESTED:
    deep_check(name, nested(*parts, LEVELS), "7")
    deep_check(f"{name}-too-deep", nested(*parts, LEVELS + 1), None, TOO_NESTED)

deep_check("expressions-in-brackets", "puts [expr {" + expressions(20) + "}]\n", "1")
deep_check("expression-and-bracket-too-deep", "puts [expr {" + parentheses(LEVELS, "[set x 1]") + "}]\n", None, TOO_NESTED)
deep_check("indices-and-brackets", nested("set a(7) 7; puts ", "$a([set x ", "7", "])", "", LEVELS // 2), "7")
deep_check("indices-and-brackets-too-deep", nested("set a(7) 7; puts ", "[set x $a(", "[set x 7]", ")]", "", LEVELS // 2), None, TOO_NESTED)

for name, character, fault in [
    ("brackets", "[", TOO_NESTED),
    ("indices", "$a(", TOO_NESTED),
    ("braces", "{", "missing close-brace"),
    ("names-in-braces", "${", "missing close-brace for variable name"),
]:
    million = MILLION // len(character)
    deep_check(f"a-megabyte-of-{name}", lambda of=character * million: f"puts a\n{of}", "a", fault)

COMPLETE = ",".join(f"[info complete [string repeat \\[ {count}]]" for count in (LEVELS, LEVELS + 1, MILLION))
deep_check("brackets-that-are-complete", f"puts {COMPLETE}\n", "0,1,1")

REPEATED = "catch {%s [string repeat %s 1000000]} m; puts $m\n"
deep_check("a-megabyte-of-brackets-evaluated", REPEATED % ("eval", "\\["), TOO_NESTED)
deep_check("a-megabyte-of-brackets-in-an-expression", REPEATED % ("expr", "\\["), TOO_NESTED)
deep_check("a-megabyte-of-parentheses", REPEATED % ("expr", "("), TOO_NESTED)
deep_check("a-megabyte-of-signs", REPEATED % ("expr", "-"), TOO_NESTED)
deep_check("a-megabyte-of-braces-in-a-list", REPEATED % ("llength", "\\{"), "unmatched open brace in list")

# ---- lists in one another

BRACES = "set l [string repeat \\{ 100000][string repeat \\} 100000]\n"
deep_check("list-length", BRACES + "puts [llength $l]\n", "1")
deep_check("list-element", BRACES + "puts [string length [lindex $l 0 0 0]]\n", str(2 * (MANY - 3)))
deep_check("list-each", BRACES + "foreach x $l {puts [string length $x]}\n", str(2 * (MANY - 1)))
deep_check("list-kept", BRACES + "lappend l a; lset l 1 b; puts [string length $l],[lindex $l 1]\n", f"{2 * MANY + 2},b")
deep_check("list-written", BRACES + "puts [string length [list $l]],[string length [lreverse $l]]\n", f"{2 * MANY + 2},{2 * MANY}")

PAIRS = "set d [string repeat k\\ \\{ 100000][string repeat \\} 100000]\n"
deep_check("dictionary-size", PAIRS + "puts [dict size $d]\n", "1")
deep_check("dictionary-element", PAIRS + "puts [string length [dict get $d k k k]]\n", str(4 * (MANY - 3)))
deep_check("dictionary-each", PAIRS + "dict for {k v} $d {puts [string length $v]}\n", str(4 * (MANY - 1)))
deep_check("dictionary-kept", PAIRS + "dict set d l a; puts [string length $d],[dict get $d l]\n", f"{4 * MANY + 4},a")

# Values that were built level by level, of which one is copied, changed and dropped. Each step writes the whole text, so
# that 100,000 levels take a minute; on the smallest stack each of them has 2.6 bytes.
BUILT_LEVELS = 10_000
BUILT = "set x %s; for {set i 1} {$i < %d} {incr i} {set x [%s $x]}; set y $x; %s; set x 1; puts %s; unset y\n"


def built_check(name, begin, step, change, answer, wanted, levels=BUILT_LEVELS):
    deep_check(f"{name}-built", BUILT % (begin, levels, step, change, answer), wanted, stacks=SMALLEST, seconds=LONG)


LIST = "lset y 0 0 a", "[llength $y],[lindex $y 0 0]", "1,a"
DICTIONARY = "dict set y k k a", "[dict size $y],[dict get $y k k]", "1,a"
built_check("deepest-list", "{{}}", "list", *LIST, levels=MANY)
built_check("deepest-dictionary", "{k {}}", "dict create k", *DICTIONARY, levels=MANY)
built_check("list", "{{}}", "list", *LIST)
built_check("list-of-two", "{{} {}}", "list {}", "lset y 1 1 a", "[llength $y],[lindex $y 1 1]", "2,a")
built_check("list-by-lreplace", "{{}}", "lreplace a 0 0", *LIST)
built_check("list-by-linsert", "{{}}", "linsert {} 0", *LIST)
built_check("list-by-lrepeat", "{{}}", "lrepeat 1", *LIST)
built_check("list-by-lappend", "{{}}", "set l {}; lappend l", *LIST)
built_check("list-by-format", "{{}}", "format {{%s}}", *LIST)
built_check("dictionary", "{k {}}", "dict create k", *DICTIONARY)
built_check("dictionary-by-replace", "{k {}}", "dict replace {k 1} k", *DICTIONARY)
built_check("dictionary-by-set", "{k {}}", "set d {}; dict set d k", *DICTIONARY)
built_check("dictionary-of-lists", "{k {}}", "list k", *DICTIONARY)
built_check("array", "{}", "set a($i) [list $x]; lindex", "set a(1) b", "[array size a],$a(1)", f"{BUILT_LEVELS - 1},b")

# a path of thousands of keys or places
PATH_LEVELS = 2_000
KEYS = f"set keys [lrepeat {PATH_LEVELS} k]; dict set d {{*}}$keys v; set e $d\n"
PLACES = f"set places [lrepeat {PATH_LEVELS} 0]; set l {'{' * PATH_LEVELS}{'}' * PATH_LEVELS}; set m $l\n"
deep_check("path-of-keys", KEYS + "puts [string length $d],[dict get $d {*}$keys]\n", f"{4 * PATH_LEVELS - 1},v", stacks=SMALLEST)
KEYS_CHANGED = "dict set e {*}$keys w; puts [dict get $d {*}$keys][dict get $e {*}$keys]\n"
deep_check("path-of-keys-changed", KEYS + KEYS_CHANGED, "vw", stacks=SMALLEST)
deep_check("path-of-keys-removed", KEYS + "dict unset e {*}$keys; puts [string length $e]\n", str(4 * PATH_LEVELS - 4), stacks=SMALLEST)
deep_check("path-of-places", PLACES + "lset m {*}$places x; puts [lindex $m {*}$places]<[lindex $l {*}$places]>\n", "x<>", stacks=SMALLEST)


def main():
    top = os.path.dirname(os.path.dirname(os.path.realpath(__file__)))
    tested = Program(os.environ.get("TCLINT") or f"{top}/crates/tclint/out/tclint")
    return judged([(f"program/{name}", lambda test=test: test(tested)) for name, test in checks() if name.startswith("deep/")])


if __name__ == "__main__":
    sys.exit(main())
