#!/usr/bin/env python3
"""Hostile use of the built program: growths that are refused, devices that fail, little memory, budgets that are too small.

    tests/hostile.py [WORD]       the tests whose name has WORD in it, or all
    tests/hostile.py FILE.case    the sweeps of refused growths over this case file

Each test is of one row, a script or a session whose whole answer is known, and of many runs: each must give the whole
answer, or end as it should with a beginning of it on both outputs. Each failure is a line, and the last line is
'N passed, M failed'. The program is crates/tclint/out/tclint, or the one that TCLINT names.
"""
import os
import sys
import tempfile
import time
from concurrent.futures import ThreadPoolExecutor

sys.dont_write_bytecode = True

import rows
from limits import limits
from program import TOP, Program, Wrong
from refusing import Refusing, build, compilers, kit_compilers

SPENT = b"budget spent\n"
MOST_BUDGETS = 1100
KINDS = ("budgets", "devices", "growths", "growths-and-later")
PROCESSORS = len(os.sched_getaffinity(0))


class Count:
    """How many tests passed and failed."""

    def __init__(self):
        self.passed = self.failed = 0

    def test(self, name, test):
        try:
            test()
            self.passed += 1
        except (Wrong, OSError, ValueError, LookupError) as what:
            self.failed += 1
            print(f"FAIL {name}: {' '.join(str(what).split())}", flush=True)

    def of(self, title, tests, runs):
        """Runs the tests of one kind, and says how many runs they were."""
        if not tests:
            return
        begun, before = time.monotonic(), runs()
        for name, test in tests:
            self.test(name, test)
        seconds = time.monotonic() - begun
        print(f"{title}: {len(tests)} tests, {runs() - before} runs, {seconds:.0f} s", flush=True)


class Budgets:
    """Runs of a row with budgets."""

    def __init__(self, tested, pool):
        self.tested, self.pool, self.runs = tested, pool, 0

    def run(self, row, units):
        self.runs += 1
        return self.tested.run(["-budget", str(units), *row.words], row.room, row.stdin)

    def is_spent(self, row, units):
        got = self.run(row, units)
        return got.status == 2 and got.stderr.endswith(SPENT)

    def least(self, row):
        """The least budget that isn't spent."""
        short, enough = -1, 1
        while self.is_spent(row, enough):
            short, enough = enough, 2 * enough
        while enough - short > 1:
            middle = (short + enough) // 2
            short, enough = (middle, enough) if self.is_spent(row, middle) else (short, middle)
        return enough

    def look(self, row, units, least):
        got = self.run(row, units)
        if units >= least and not row.is_whole(got):
            raise Wrong(f"{units} units of {least}: another answer: status {got.status}, {got.stdout!r}")
        if units < least and got.status != 2:
            raise Wrong(f"{units} units of {least}: status {got.status}")
        row.look(got, 2, SPENT)

    def sweep(self, row):
        """Each budget below the least that is enough, or a spread of them; that one, and one more."""
        least = self.least(row)
        if row.units is not None and row.units != least:
            raise Wrong(f"{least} units, and not {row.units}")
        below = range(least)
        if least > MOST_BUDGETS:
            below = sorted({at * (least - 1) // (MOST_BUDGETS - 1) for at in range(MOST_BUDGETS)})
        list(self.pool.map(lambda units: self.look(row, units, least), [*below, least, least + 1]))


def settled(count, tested, room, found):
    """The rows that give their answers where nothing disturbs them; any other is a failure."""
    good = []
    for row in found:
        try:
            row.settle(tested, room)
            good.append(row)
        except (Wrong, OSError) as what:
            count.failed += 1
            print(f"FAIL row/{row.name}: {' '.join(str(what).split())}", flush=True)
    return good


def rows_for(words):
    """The rows, or those of the case files that are named, and the word that the names of tests must have."""
    paths = [word for word in words if word.endswith(".case")]
    if paths:
        return [rows.case_row(path) for path in paths], "growths"
    found = rows.worked_rows() + rows.typed_rows() + rows.sliced_rows() + rows.case_rows()
    return found, words[0] if words else ""


def chosen(prefix, found, word, test):
    """A test of each row whose name has the word in it."""
    named = [(f"{prefix}/{row.name}", row) for row in found]
    return [(name, lambda row=row: test(row)) for name, row in named if word in name]


def sweep_all(count, tested, room, words):
    """All tests of rows."""
    found, word = rows_for(words)
    found = [row for row in found if any(word in f"{kind}/{row.name}" for kind in KINDS)]
    if not found:
        return
    found = settled(count, tested, room, found)
    short = [row for row in found if not row.name.startswith("case/scripts/")]
    with ThreadPoolExecutor(PROCESSORS) as pool:
        budgets = Budgets(tested, pool)
        tests = chosen("budgets", [row for row in found if not row.has_options], word, budgets.sweep)
        count.of("budgets", tests, lambda: budgets.runs)
        try:
            refusing = Refusing(tested.path, build(room, compilers()), pool)
        except Wrong as what:
            count.failed += 1
            print(f"FAIL refusing: {what}", flush=True)
            return
        devices = chosen("devices", short, word, refusing.devices_fail)
        one = chosen("growths", found, word, lambda row: refusing.sweep(row, False))
        later = chosen("growths-and-later", found, word, lambda row: refusing.sweep(row, True))
        count.of("failing devices", devices, lambda: refusing.runs)
        count.of("refused growths", one, lambda: refusing.runs)
        count.of("refused growths, and all later ones", later, lambda: refusing.runs)


def call_all(count, room, words):
    """Single calls that are made again where they were refused: each growth of their program is refused in turn."""
    name = "calls/growths"
    if words and words[0] not in name:
        return
    tested = Program(os.environ.get("TCL_REFUSALS") or f"{TOP}/crates/tcl_refusals/out/tcl_refusals")
    with ThreadPoolExecutor(PROCESSORS) as pool:
        refusing = Refusing(tested.path, None, pool)

        def test():
            row = rows.calls_row()
            row.settle(tested, room)
            refusing.library = build(room, compilers())
            refusing.sweep(row, False)
            refusing.sweep(row, True)

        count.of("single calls, refused and made again", [(name, test)], lambda: refusing.runs)


def build_all(count, room, words):
    """The library that refuses: the kit's compiler alone builds it, and where there is none, that is a failure that says so."""

    def by_none():
        try:
            build(room, [])
        except Wrong as what:
            if "none is there" in str(what):
                return
            raise
        raise Wrong("the library was built by no compiler")

    tests = [("compilers/none", by_none)]
    if kit_compilers():
        tests.append(("compilers/of-the-kit", lambda: build(room, kit_compilers())))
        tests.append(("compilers/behind-one-that-fails", lambda: build(room, ["false", *kit_compilers()])))
    word = words[0] if words else ""
    for name, test in tests:
        if word in name:
            count.test(name, test)


def limit_all(count, tested, room, words):
    """All tests in limited memory, a few side by side."""
    word = words[0] if words else ""
    tests = [(name, test) for name, test in limits(tested, room) if word in name]
    if tests:
        begun = time.monotonic()
        with ThreadPoolExecutor(min(4, PROCESSORS)) as pool:
            list(pool.map(lambda test: count.test(*test), tests))
        print(f"limits of memory: {len(tests)} tests and runs, {time.monotonic() - begun:.0f} s", flush=True)


def main(words):
    tested = Program(os.environ.get("TCLINT") or f"{TOP}/crates/tclint/out/tclint")
    count = Count()
    if not tested.is_there():
        print(f"FAIL the program isn't there: {tested.path} (./tclint builds it)\n0 passed, 1 failed")
        return 1
    with tempfile.TemporaryDirectory(prefix="tclint-hostile-") as room:
        build_all(count, room, words)
        sweep_all(count, tested, room, words)
        call_all(count, room, words)
        limit_all(count, tested, room, words)
    print(f"{count.passed} passed, {count.failed} failed")
    return 0 if count.passed and not count.failed else 1


if __name__ == "__main__":
    sys.exit(main(sys.argv[1:]))
