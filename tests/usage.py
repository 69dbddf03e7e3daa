"""Checks of the words of a run, and of files that can't be read."""
import os

from program import TOP, USAGE, Program, Wrong, check, expect, run_text, write


def usage_check(name, words):
    @check(f"usage/{name}")
    def _(tested, room):
        write(room, "puts no\n")
        expect(tested.run(words, room), 5, b"", USAGE)


usage_check("budget-alone", ["-budget"])
usage_check("budget-word-alone", ["-budget", "x"])
usage_check("budget-empty-alone", ["-budget", ""])
usage_check("budget-one-too-many-alone", ["-budget", "9223372036854775808"])
usage_check("budget-word", ["-budget", "x", "script.tcl"])
usage_check("budget-empty", ["-budget", "", "script.tcl"])
BEFORE_SLICE = [
    ("slice", []),
    ("slice-behind-budget", ["-budget", "5"]),
    ("slice-behind-tcl9", ["-tcl9"]),
    ("slice-behind-tcl9-and-budget", ["-tcl9", "-budget", "5"]),
]
for given, before in BEFORE_SLICE:
    usage_check(f"{given}-alone", [*before, "-slice"])
    usage_check(f"{given}-file-forgotten", [*before, "-slice", "5"])
    usage_check(f"{given}-number-forgotten", [*before, "-slice", "script.tcl"])
    usage_check(f"{given}-number-forgotten-argument", [*before, "-slice", "script.tcl", "x"])
    usage_check(f"{given}-zero", [*before, "-slice", "0", "script.tcl"])
    usage_check(f"{given}-zeros", [*before, "-slice", "000", "script.tcl"])
    usage_check(f"{given}-empty", [*before, "-slice", "", "script.tcl"])
    usage_check(f"{given}-negative", [*before, "-slice", "-1", "script.tcl"])
    usage_check(f"{given}-signed", [*before, "-slice", "+1", "script.tcl"])
    usage_check(f"{given}-hexadecimal", [*before, "-slice", "0x10", "script.tcl"])
    usage_check(f"{given}-one-too-many", [*before, "-slice", "9223372036854775808", "script.tcl"])
    usage_check(f"{given}-before-file", [*before, "-slice", "0", "nosuch.tcl"])
usage_check("slice-behind-bad-budget", ["-budget", "x", "-slice", "5", "script.tcl"])
usage_check("slice-between", ["-budget", "-slice", "5", "script.tcl"])
usage_check("budget-negative", ["-budget", "-1", "script.tcl"])
usage_check("budget-signed", ["-budget", "+1", "script.tcl"])
usage_check("budget-space", ["-budget", " 1", "script.tcl"])
usage_check("budget-hexadecimal", ["-budget", "0x10", "script.tcl"])
usage_check("budget-fraction", ["-budget", "1.0", "script.tcl"])
usage_check("budget-one-too-many", ["-budget", "9223372036854775808", "script.tcl"])
usage_check("budget-very-large", ["-budget", "9" * 1000, "script.tcl"])
usage_check("budget-other-digits", ["-budget", "\u0663", "script.tcl"])
usage_check("budget-file-forgotten", ["-budget", "script.tcl"])
usage_check("before-file", ["-budget", "x", "nosuch.tcl"])
usage_check("budget-word-behind-tcl9", ["-tcl9", "-budget", "x", "script.tcl"])
usage_check("budget-alone-behind-tcl9", ["-tcl9", "-budget"])
usage_check("budget-file-forgotten-behind-tcl9", ["-tcl9", "-budget", "script.tcl"])
BEFORE_TCL9 = [
    ("tcl9", ["-tcl9"]),
    ("budget", ["-budget", "5"]),
    ("slice", ["-slice", "5"]),
    ("budget-and-slice", ["-budget", "5", "-slice", "5"]),
    ("tcl9-and-budget", ["-tcl9", "-budget", "5"]),
    ("tcl9-and-slice", ["-tcl9", "-slice", "5"]),
]
for given, before in BEFORE_TCL9:
    usage_check(f"tcl9-behind-{given}", [*before, "-tcl9"])
    usage_check(f"tcl9-behind-{given}-before-file", [*before, "-tcl9", "script.tcl"])
usage_check("tcl9-in-place-of-a-budget", ["-budget", "-tcl9", "script.tcl"])
usage_check("tcl9-in-place-of-a-slice", ["-slice", "-tcl9", "script.tcl"])
usage_check("tcl9-word-not-utf8", ["-tcl9", b"\xff"])
usage_check("word-not-utf8", [b"\xff"])
usage_check("word-not-utf8-behind-file", ["script.tcl", b"\xff"])


@check("usage/slice-twice")
def _(tested, room):
    write(room, "puts [list $argv0 $argv]\n", "-slice")
    expect(tested.run(["-slice", "5", "-slice", "6"], room), 0, b"-slice 6\n")


@check("usage/slice-before-budget")
def _(tested, room):
    write(room, "puts [list $argv0 $argv]\n", "-budget")
    expect(tested.run(["-slice", "5", "-budget", "0", "f"], room), 0, b"-budget {0 f}\n")


@check("usage/slice-behind-file")
def _(tested, room):
    write(room, "puts [list $argv0 $argv]\n")
    expect(tested.run(["script.tcl", "-slice", "0"], room), 0, b"script.tcl {-slice 0}\n")


@check("usage/tcl9-behind-file")
def _(tested, room):
    write(room, "puts [list $argv0 $argv [expr {010}]]\n")
    expect(tested.run(["script.tcl", "-tcl9"], room), 0, b"script.tcl -tcl9 8\n")
    expect(tested.run(["-tcl9", "script.tcl", "-tcl9"], room), 0, b"script.tcl -tcl9 10\n")


def unreadable_check(name, path, message=None):
    @check(f"file/{name}")
    def _(tested, room):
        os.mkdir(os.path.join(room, "folder"))
        write(room, "puts no\n")
        wanted = f'couldn\'t read file "{path}"\n'.encode()
        expect(tested.run([path], room), 5, b"", wanted)


unreadable_check("missing", "nosuch.tcl")
unreadable_check("empty-name", "")
unreadable_check("folder", "folder")
unreadable_check("below-a-file", "script.tcl/x")
unreadable_check("name-like-an-option", "-x")
unreadable_check("name-like-tcl9", "-tcl8")
unreadable_check("name-like-tcl9-in-capitals", "-TCL9")
unreadable_check("name-like-tcl9-and-more", "-tcl90")
unreadable_check("name-too-long", "x" * 5000)
unreadable_check("name-past-ascii", "é €.tcl")


@check("file/missing-after-budget")
def _(tested, room):
    expect(tested.run(["-budget", "1", "nosuch.tcl"], room), 5, b"", b'couldn\'t read file "nosuch.tcl"\n')


@check("file/missing-after-tcl9")
def _(tested, room):
    expect(tested.run(["-tcl9", "nosuch.tcl"], room), 5, b"", b'couldn\'t read file "nosuch.tcl"\n')


def not_utf8_check(name, text):
    @check(f"file/not-utf8-{name}")
    def _(tested, room):
        expect(run_text(tested, room, text), 5, b"", b'file "script.tcl" is not UTF-8\n')


not_utf8_check("byte", b"puts a\xff\n")
not_utf8_check("cut", b"puts a\n# \xe2\x82")
not_utf8_check("surrogate", b"puts \xed\xa0\x80\n")
not_utf8_check("overlong", b"puts \xc0\x80\n")
not_utf8_check("past-the-last", b"puts \xf4\x90\x80\x80\n")


@check("file/name-not-utf8")
def _(tested, room):
    with open(os.path.join(os.fsencode(room), b"\xff.tcl"), "wb") as file:
        file.write(b"puts a\n")
    got = tested.run([b"\xff.tcl"], room)
    if (got.status, got.stdout) != (0, b"a\n") and not (got.status == 5 and got.stderr):
        raise Wrong(f"neither the script's end nor a refusal: {got.status} {got.stdout} {got.stderr}")


@check("file/in-another-folder")
def _(tested, room):
    os.mkdir(f"{room}/a folder")
    write(room, "puts $argv0\n", "a folder/a script.tcl")
    expect(tested.run(["a folder/a script.tcl"], room), 0, b"a folder/a script.tcl\n")


@check("file/whole-path")
def _(tested, room):
    path = os.path.join(room, write(room, "puts $argv0\n"))
    expect(tested.run([path], "/"), 0, path.encode() + b"\n")


@check("file/from-a-pipe")
def _(tested, room):
    expect(tested.run(["/dev/stdin"], room, stdin=b"puts a\n"), 0, b"a\n")


@check("file/launcher")
def _(tested, room):
    if tested.path != os.path.join(TOP, "crates/tclint/out/tclint"):
        return False
    write(room, "puts $argv0\n")
    expect(Program(f"{TOP}/tclint").run(["script.tcl"], room), 0, b"script.tcl\n")
    expect(Program(f"{TOP}/tclint").run(["-budget", "0", "script.tcl"], room), 2, b"", b"budget spent\n")
    expect(Program(f"{TOP}/tclint").run([], room, stdin=b"puts a\n"), 0, b"% a\n% ")
