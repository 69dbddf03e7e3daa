"""Checks of ./test of the top, in a small folder in which rt and the tests are scripts that only say their names: what it runs, and
how it counts."""
import os
import re
import subprocess
import sys

from launcher import write_script
from program import TOP, Result, Wrong, check, write

PARTS = ("tests/run", "tests/hostile.py", "tests/release")


def program(room, name, lines, status):
    """A script of the shell, or of Python where it stands in tests/, that notes its words and ends with these lines."""
    by_python = name in PARTS[:2]
    if by_python:
        text = f"import sys\nprint({lines!r})\nprint('{name}', *sys.argv[1:], file=open('calls', 'a'))\nsys.exit({status})\n"
    else:
        text = f"#!/bin/sh\necho '{name}' \"$@\" >>calls\necho '{lines}'\nexit {status}\n"
    write_script(f"{room}/{name}", text)


def ended(room, rt=True):
    subprocess.run(["cp", f"{TOP}/test", f"{room}/test"], check=True)
    os.makedirs(f"{room}/release")
    for name in ("tclint", "tclwhere"):
        os.makedirs(f"{room}/crates/{name}/out")
        write(room, name, f"crates/{name}/out/{name}")
    os.makedirs(f"{room}/python")
    os.symlink(sys.executable, f"{room}/python/python3")
    environment = dict(os.environ, PATH=f"{room}/{'bin' if rt else 'nowhere'}:{room}/python:/usr/bin:/bin")
    ran = subprocess.run([f"{room}/test"], cwd="/", env=environment, stdin=subprocess.DEVNULL, capture_output=True, check=False)
    return Result(ran.returncode, ran.stdout, ran.stderr)


def gate_check(name, ends, last, status, rt=True):
    """`ends` has the last line of each part, rt first, and its status."""

    @check(f"gate/{name}")
    def _(tested, room):
        for part, (lines, ended_with) in zip(("bin/rt", *PARTS), ends):
            program(room, part, lines, ended_with)
        got = ended(room, rt)
        if (got.status, got.stdout.decode().splitlines()[-1]) != (status, last):
            raise Wrong(f"status {got.status}, {got.stdout.decode()} {got.stderr.decode()}")
        with open(f"{room}/calls", encoding="utf-8") as file:
            calls = re.sub(r"^bin/rt version\n", "", file.read(), flags=re.MULTILINE)
        wanted = ["bin/rt ci", "tests/run", "tests/hostile.py", "tests/release --compare"]
        if calls.splitlines() != (wanted if rt else wanted[1:]):
            raise Wrong(f"these were called: {calls}")


GOOD = [("40 passed, 0 failed", 0), ("20 passed, 0 failed", 0), ("8 passed, 0 failed", 0), ("2 passed, 0 failed", 0)]
gate_check("all-pass", GOOD, "70 passed, 0 failed", 0)
gate_check("one-part-fails", [*GOOD[:2], ("5 passed, 3 failed", 1), GOOD[3]], "67 passed, 3 failed", 1)
gate_check("one-part-says-nothing", [GOOD[0], ("broken", 0), *GOOD[2:]], "50 passed, 1 failed", 1)
gate_check("one-part-ends-badly", [("40 passed, 0 failed", 1), *GOOD[1:]], "70 passed, 1 failed", 1)
gate_check("no-rt", GOOD, "30 passed, 1 failed", 1, rt=False)
