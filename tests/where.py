"""Checks of tclwhere: the cases of where/, each with all that it writes to standard error, and that it does what tclint does.

The program is crates/tclwhere/out/tclwhere, or the one that TCLWHERE names. With TCLINT and without TCLWHERE these checks are left out.
"""
import os

import casefile
from program import IO_FAULT, TOP, Program, Wrong, by_shell, check, expect, run_text, shown

FOLDER = f"{TOP}/tests/where"
USAGE = b"usage: tclwhere FILE ?arg ...?\n"


def tclwhere():
    return Program(os.environ.get("TCLWHERE") or f"{TOP}/crates/tclwhere/out/tclwhere")


def is_left_out():
    return "TCLINT" in os.environ and "TCLWHERE" not in os.environ


def run_case(program, case, room):
    with open(f"{room}/script.tcl", "wb") as file:
        file.write(case.script)
    return program.run(["script.tcl", *case.args], room, stdin=case.stdin)


def where_check(name):
    @check(f"where/{name}")
    def _(tested, room):
        if is_left_out():
            return False
        case = casefile.load(f"{FOLDER}/{name}.case")
        got = run_case(tclwhere(), case, room)
        expect(got, case.status, case.stdout, case.stderr.replace(b"FILE", b"script.tcl"))
        plain = run_case(tested, case, room)
        if (got.status, got.stdout) != (plain.status, plain.stdout) or not got.stderr.startswith(plain.stderr):
            raise Wrong(f"tclint ends with {plain.status}, {shown(plain.stdout)} and {shown(plain.stderr)}")


for path in casefile.paths_below(FOLDER):
    where_check(os.path.basename(path)[: -len(".case")])


@check("where/does-what-tclint-does")
def _(tested, room):
    """Each case of tclint without options: the same output and status, and its message in front."""
    if is_left_out():
        return False
    for path in casefile.paths_below(f"{TOP}/tests/cases"):
        case = casefile.load(path)
        if case.script is None or case.options:
            continue
        got = run_case(tclwhere(), case, room)
        if case.is_beginning and got.stdout.startswith(case.stdout):
            case.stdout = got.stdout
        message = case.stderr.replace(b"FILE", b"script.tcl")
        if (got.status, got.stdout) != (case.status, case.stdout) or not got.stderr.startswith(message):
            raise Wrong(f"{path}: {got.status}, {shown(got.stdout)}, {shown(got.stderr)}")
        told = got.stderr[len(message):]
        if told == b"" and case.status == 1 and not any(word in case.script for word in (b"exit", b"return")):
            raise Wrong(f"{path}: no place is told")
        if told != b"" and case.status not in (1, 5):
            raise Wrong(f"{path}: {shown(told)} behind what is no error")


def ends_check(name, text, redirection, status, stdout, message):
    """Ends that are no error of the script: the same as by tclint, and no place is told."""

    @check(f"where/{name}")
    def _(tested, room):
        if is_left_out():
            return False
        by = by_shell(f'{redirection[0]} exec "$0" "$@" {redirection[1]}')
        for program in (tested, tclwhere()):
            expect(run_text(program, room, text, by=by), status, stdout, message)


ends_check("output-full", "proc p {} {puts a}\np\n", ("", ">/dev/full"), 4, b"", IO_FAULT)
ends_check("input-closed", "puts a\nproc p {} {gets stdin}\ncatch p\n", ("", "<&-"), 4, b"a\n", IO_FAULT)
ends_check("no-memory", "puts a\nproc p {} {while 1 {append ::s abcdefgh$::s}}\nset s {}\np\n", ("ulimit -v 100000;", ""), 3, b"a\n", b"out of memory\n")


def words_check(name, words, status, stderr):
    @check(f"where/{name}")
    def _(tested, room):
        if is_left_out():
            return False
        expect(tclwhere().run(words, room), status, b"", stderr)


words_check("no-words", [], 5, USAGE)
words_check("an-option", ["-budget", "3", "script.tcl"], 5, USAGE)
words_check("an-empty-word", [""], 5, b"couldn't read file \"\"\n")
words_check("no-such-file", ["nosuch.tcl", "a"], 5, b"couldn't read file \"nosuch.tcl\"\n")
