"""Checks of what docs/MANUAL.md remarks of tclsh, of which tclint does otherwise. They are left out where there is no tclsh 8.6."""
import re

from program import TOP, Program, Wrong, check, run_text

# What the remark stands in, the remark, a script, and what tclsh and tclint put out.
REMARKS = [
    ("neither is abbreviated", "tclsh takes abbreviations", "puts [catch {string len abc} m]:$m", "0:3", '1:unknown or ambiguous subcommand "len": must be ..'),
    ("expected integer but got", "tclsh has floats and numbers without bound.", "puts [catch {expr {1.5 + 1}} m]:$m", "0:2.5", '1:invalid bareword "1.5"'),
    ("other colons are part of a name", "tclsh: namespaces", "puts [catch {set a::b 1} m]:$m", '1:can\'t set "a::b": parent namespace ..', "0:1"),
    ("Past 64 bits: `integer overflow`", "tclsh goes on", "set n [expr {2 ** 62 - 1 + 2 ** 62}]; catch {incr n} m; puts $m", "9223372036854775808", "integer overflow"),
    ("in the order of code points", "tclsh: in any order", "foreach i {d b e a c g f} {set a($i) 1}; puts [expr {[array names a] eq [lsort [array names a]]}]", "0", "1"),
    ("formal is set twice", "tclsh keeps the first", "proc f {a a} {set a}; puts [f 1 2]", "1", "2"),
    ("where n is decimal digits", "tclsh: a number", "set x t; proc f {} {upvar 0x1 x y; set y}; puts [catch f m]:$m", "0:t", '1:bad level "0x1"'),
    ("the error is the usage", "tclsh has other texts", "catch {if 1} m; puts $m", 'wrong # args: no script following "1" argument', 'wrong # args: should be "if cond ..'),
    ("go into variables", "tclsh adds `-errorinfo`, `-errorline` and others", "catch {error x} m o; puts [dict exists $o -errorinfo][dict exists $o -errorline]", "11", "00"),
    ("with a status, 0 to 255", "tclsh takes any number", "if {[catch {exit 256} m]} {puts $m}", "", 'bad exit status "256": must be 0 to 255'),
    ("A result past 64 bits", "tclsh goes on", "catch {expr {2 ** 64}} m; puts $m", "18446744073709551616", "integer overflow"),
    ("`nesting too deep`.", "tclsh has other texts.", "catch {expr {1 + }} m; puts $m", "missing operand at ..", "missing operand"),
    ("Case and classes are those of ASCII letters", "tclsh: of all letters", "puts [string toupper é][string is alpha é]", "É1", "é0"),
    ("A number is a boolean", "tclsh: only 0 and 1", "puts [string is boolean 5][string is boolean 1]", "01", "11"),
    ("Zeros fill numbers alone", "tclsh also fills texts", "puts [format %05s a]", "0000a", "    a"),
]


def puts(tested, room, script, wanted):
    """Runs a script, which must put out this line, of which `..` stands for the rest, or nothing."""
    got = run_text(tested, room, script)
    line, beginning = got.stdout.decode(), wanted.removesuffix("..")
    whole = line.startswith(beginning) if beginning != wanted else line == (f"{wanted}\n" if wanted else "")
    if got.status or got.stderr or not whole:
        raise Wrong(f"{tested.path}: {script}: {got.status} {line!r} {got.stderr!r}, and not {wanted!r}")


def tclsh_of_8_6(room):
    """tclsh, or nothing where it isn't there or is another version."""
    tclsh = Program("tclsh")
    return tclsh if tclsh.is_there() and run_text(tclsh, room, "puts $tcl_version").stdout == b"8.6\n" else None


@check("remarks/tclsh-does-as-told")
def _(tested, room):
    tclsh = tclsh_of_8_6(room)
    if not tclsh:
        return False
    for _, _, script, by_tclsh, by_tclint in REMARKS:
        puts(tclsh, room, script, by_tclsh)
        puts(tested, room, script, by_tclint)


@check("remarks/each-is-tried")
def _(tested, room):
    with open(f"{TOP}/docs/MANUAL.md", encoding="utf-8") as file:
        text = " ".join(file.read().split())
    told = re.findall(r"\(\*(tclsh[^*]*)\*\)", text)
    if sorted(told) != sorted(remark for _, remark, *_ in REMARKS):
        raise Wrong(f"these are told: {told}")
    for sentence, remark, *_ in REMARKS:
        if not re.search(rf"{re.escape(sentence)}[^()]*\(\*{re.escape(remark)}\*\)", text):
            raise Wrong(f"this remark stands elsewhere: {sentence}, {remark}")


@check("remarks/tclsh-counts-calls")
def _(tested, room):
    """Wherever the call stands in its body."""
    tclsh = tclsh_of_8_6(room)
    if not tclsh:
        return False
    forms = ("f", "return [f]", "if 1 {f}", "if 1 {return [f]}", "return [expr {1 + [f]}]", "if 1 {return [expr {1 + [f]}]}")
    counts = {run_text(tclsh, room, f"proc f {{}} {{incr ::n; {form}}}\ncatch f\nputs $n").stdout for form in forms}
    if len(counts) != 1:
        raise Wrong(f"{counts}")
