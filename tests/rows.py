"""Rows for hostile use: a script or a session with what it is given, and its whole answer."""
import os
import re

import casefile
from program import TOP, Result, Wrong, expect, shown

WORKED = f"{TOP}/crates/tcl_rows"
CASES = f"{TOP}/tests/cases"
INPUT = b"a\r\nb"

# cases beside those of the manual, all of which are rows
NAMED = """
    start/hello start/script-name budget/one-too-few words/values-stay-one-word words/continued-in-braces escapes/letters
    variables/element variables/again variables/fault-no-element commands/unknown commands/set-many syntax/runs-before
    puts/channels puts/order puts/unicode puts/long lines/cr-lf words/expansion session/texts session/input slices/bracket
    session/incomplete session/exit session/budget pages/read/some-characters pages/read/more-characters
    pages/gets/ill-formed-byte pages/gets/ill-formed-parts pages/flush/basic pages/flush/faulty-calls
    pages/eval/again-and-again pages/dict/lappend-again pages/foreach/long-list pages/format/many-fields pages/split/many-parts
    pages/string/map-of-many-keys pages/switch/many-patterns
    inlined/break-replaced inlined/codes-in-start inlined/codes-in-the-test-of-for inlined/expr-replaced
    inlined/faults-when-they-are-reached inlined/for-put-back inlined/for-replaced-in-next
    inlined/foreach-deleted-in-its-body inlined/foreach-several-lists-replaced inlined/if-replaced-in-a-branch
    inlined/incr-replaced-in-a-loop inlined/loops-in-tests inlined/nested-loops inlined/set-replaced-in-a-loop
    inlined/seventeen-levels inlined/while-renamed-in-its-body
""".split()
# programs with more growths than are tried one by one
LONG = "settings-read stacks-and-queues reverse-polish-calculator graph-search assembler netlist-in-levels".split()
# worked rows that are also given to a session, and run in slices
TYPED = "hello missing_brace caught copies dictionary uplevel renamed reading exit behind_brace finally_behind_handler".split()
SLICED = "loop uplevel upvar reading patterns bracket_in_part finally_behind_handler on_break break_of_caller".split()

SECTION = re.compile(r"^== (\w+)\.tcl\n(.*?)(?=^== )", re.MULTILINE | re.DOTALL)
END = re.compile(r"(?:with (\d+) units:\n)?(.*?)(?:code (\d), result <(.*?)>|exit (\d+))\n", re.DOTALL)


class Row:
    """One row. What is told of it beforehand is an answer, and the units that it needs, or None."""

    def __init__(self, name, words, stdin=b"", script=None, told=None, units=None):
        self.name, self.words, self.stdin, self.script = name, words, stdin, script
        self.told, self.units = told, units
        self.is_beginning = self.has_options = False
        self.room = self.answer = None

    def settle(self, tested, folder):
        """Gives the row a folder, and takes its answer from a run that nothing disturbs."""
        self.room = os.path.join(folder, self.name.replace("/", "_"))
        os.mkdir(self.room)
        if self.script is not None:
            with open(f"{self.room}/script.tcl", "wb") as file:
                file.write(self.script)
        self.answer = tested.run(self.words, self.room, self.stdin)
        if self.told and self.is_beginning and self.answer.stdout.startswith(self.told.stdout):
            self.told.stdout = self.answer.stdout
        if self.told:
            expect(self.answer, self.told.status, self.told.stdout, self.told.stderr)

    def is_whole(self, got):
        return vars(got) == vars(self.answer)

    def look(self, got, status, line):
        """Raises Wrong where a run gave neither the whole answer, nor a beginning of it with this end."""
        if self.is_whole(got):
            return
        told = f"status {got.status}, stdout {shown(got.stdout)}, stderr {shown(got.stderr)}"
        if got.status != status or not got.stderr.endswith(line):
            raise Wrong(f"neither the whole answer nor status {status} with its line: {told}")
        written = got.stderr[: len(got.stderr) - len(line)]
        if not (self.answer.stdout.startswith(got.stdout) and self.answer.stderr.startswith(written)):
            raise Wrong(f"what was put out is no beginning of the row's: {told}")


def told_rows():
    """What is told of each worked row: its answer as the program gives it, and its units."""
    with open(f"{WORKED}/stdout", encoding="utf-8") as file:
        found = SECTION.findall(file.read())
    told = {}
    for name, text in found:
        units, out, code, result, status = END.match(text).groups()
        stderr = f"{result}\n" if code == "1" else ""
        told[name] = Result(int(code or status), out.encode(), stderr.encode()), units and int(units)
    return told


def worked_script(name):
    with open(f"{WORKED}/data/{name}.tcl", "rb") as file:
        return file.read()


def worked_rows():
    told = told_rows()
    names = sorted(name[: -len(".tcl")] for name in os.listdir(f"{WORKED}/data"))
    if names != sorted(told):
        raise Wrong(f"not told in tcl_rows/stdout, or not there: {sorted(set(names) ^ set(told))}")
    return [Row(f"worked/{name}", ["script.tcl"], INPUT, worked_script(name), *told[name]) for name in names]


def typed_rows():
    """Worked rows as texts of a session, which the next lines follow."""
    return [Row(f"typed/{name}", [], worked_script(name) + b"\n" + INPUT) for name in TYPED]


def sliced_rows():
    told = told_rows()
    return [
        Row(f"slices-of-{size}/{name}", ["-slice", size, "script.tcl"], INPUT, worked_script(name), *told[name])
        for size in ("1", "3")
        for name in SLICED
    ]


def calls_row():
    """The program of single calls, which takes no words."""
    with open(f"{TOP}/crates/tcl_refusals/stdout", "rb") as file:
        return Row("calls", [], told=Result(0, file.read(), b""))


def case_row(path):
    case = casefile.load(path)
    words = list(case.options) + ([] if case.script is None else ["script.tcl", *case.args])
    stderr = case.stderr.replace(b"FILE", b"script.tcl")
    name = os.path.relpath(path, CASES)[: -len(".case")]
    row = Row(f"case/{name}", words, case.stdin, case.script, Result(case.status, case.stdout, stderr))
    row.is_beginning, row.has_options = case.is_beginning, bool(case.options)
    return row


def case_rows():
    names = NAMED + [f"scripts/{name}" for name in LONG]
    paths = casefile.paths_below(f"{CASES}/manual") + [f"{CASES}/{name}.case" for name in names]
    return [case_row(path) for path in paths]
