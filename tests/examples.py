#!/usr/bin/env python3
"""Checks of the scripts of examples/: each run in tests/examples must put out what tclsh 8.6 put out.

    tests/examples.py             these checks alone; tests/run runs them with all others
    tests/examples.py --tclsh     the same by tclsh in the program's place
    tests/examples.py --record    writes down anew what tclsh puts out

A run is a file NAME.stdout or NAME-WORD.stdout, of the script examples/NAME.tcl. Beside it stand, where they aren't
empty, .args (words behind the script's name, one a line), .stdin, .stderr, and .status where it isn't 0.
"""
import os
import sys

sys.dont_write_bytecode = True

from program import TOP, Program, Wrong, check, checks, expect
from run_checks import judged

FOLDER = f"{TOP}/tests/examples"


def part(run, kind):
    """What a file of a run holds, as bytes; nothing where it isn't there."""
    try:
        with open(f"{FOLDER}/{run}.{kind}", "rb") as file:
            return file.read()
    except FileNotFoundError:
        return b""


def runs():
    """The runs by their names. Each file of the folder belongs to one."""
    return sorted({os.path.splitext(name)[0] for name in os.listdir(FOLDER)})


def script(run):
    return f"examples/{run.split('-')[0]}.tcl"


def ended(run, tested):
    """Runs the script of a run from the top, as a reader would."""
    return tested.run([script(run), *part(run, "args").splitlines()], TOP, stdin=part(run, "stdin"))


def run_check(run):
    @check(f"examples/{run}")
    def _(tested, room):
        if not os.path.exists(f"{FOLDER}/{run}.stdout"):
            raise Wrong("nothing is expected of it: no .stdout")
        expect(ended(run, tested), int(part(run, "status") or 0), part(run, "stdout"), part(run, "stderr"))


for name in runs():
    run_check(name)


@check("examples/each-has-a-run-and-a-line")
def _(tested, room):
    scripts = {f"examples/{name}" for name in os.listdir(f"{TOP}/examples") if name.endswith(".tcl")}
    if scripts != {script(run) for run in runs()}:
        raise Wrong(f"not in both: {sorted(scripts ^ {script(run) for run in runs()})}")
    with open(f"{TOP}/examples/README.md", encoding="utf-8") as file:
        text = file.read()
    for name in scripts:
        if f"./tclint {name}" not in text:
            raise Wrong(f"examples/README.md doesn't say how to run {name}")


def record(tclsh):
    """Writes what tclsh puts out, and removes what is empty."""
    for run in runs():
        got = ended(run, tclsh)
        status = b"%d\n" % got.status if got.status else b""
        for kind, text in ("stdout", got.stdout), ("stderr", got.stderr), ("status", status):
            if text or kind == "stdout":
                with open(f"{FOLDER}/{run}.{kind}", "wb") as file:
                    file.write(text)
            elif os.path.exists(f"{FOLDER}/{run}.{kind}"):
                os.remove(f"{FOLDER}/{run}.{kind}")
        print(f"recorded {run}")


def main(words):
    tclsh = Program("tclsh")
    if words == ["--record"]:
        return record(tclsh)
    tested = tclsh if words == ["--tclsh"] else Program(os.environ.get("TCLINT") or f"{TOP}/crates/tclint/out/tclint")
    return judged([(f"program/{name}", lambda test=test: test(tested)) for name, test in checks() if name.startswith("examples/")])


if __name__ == "__main__":
    sys.exit(main(sys.argv[1:]))
