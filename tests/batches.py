"""Scripts that run in batches, since starting a program is most of what a short run takes: one shell starts the program for each run
of a batch, and one tclsh runs each script of a batch in a new interpreter."""
import os
import sys
import tempfile
import time
from concurrent.futures import ThreadPoolExecutor

from program import TOP, Program, Wrong, write

TOGETHER = 200  # scripts of one batch
SECONDS = 20  # of a processor, for one run
PROCESSORS = len(os.sched_getaffinity(0))
TOLD_EACH = 1000  # scripts
# What stands between outputs, which may have a NUL of their own; and how the shell's printf and tclsh are told to write it.
BETWEEN, ESCAPED = b"\0run\0", r"\0run\0"


class Run:
    """One run of a script. How it ended is a status, what was put out, and the message."""

    def __init__(self, name, text, options):
        self.name, self.text, self.options, self.end = name, text, options, None


def run_all(tested, room, runs):
    """Notes how each run ended. One shell starts them, and puts its status behind what each has put out."""
    lines = [f"ulimit -t {SECONDS}\n"]
    for at, run in enumerate(runs):
        write(room, run.text, f"{at}.tcl")
        lines.append(f"\"$1\" {' '.join(run.options)} {at}.tcl; printf '{ESCAPED}%d{ESCAPED}' $?; printf '{ESCAPED}' >&2\n")
    write(room, "".join(lines), "runs.sh")
    got = tested.run([], room, by=["sh", "runs.sh"])
    outs, errors = got.stdout.split(BETWEEN), got.stderr.split(BETWEEN)
    if (got.status, len(outs), len(errors)) != (0, 2 * len(runs) + 1, len(runs) + 1):
        raise Wrong(f"the shell ended with status {got.status} after {len(errors) - 1} of {len(runs)} runs")
    for run, out, status, error in zip(runs, outs[::2], outs[1::2], errors):
        run.end = int(status), out, error


# Each script in an interpreter of its own, from which nothing reaches the next one. A break or continue that leaves a script is
# the error there that it is where tclsh is given the script as its file.
EACH_BY_TCLSH = f"""
foreach file $argv {{
    set one [interp create]
    interp limit $one time -seconds [expr {{[clock seconds] + {SECONDS}}}]
    set code [catch {{interp eval $one [list source $file]}} message]
    interp delete $one
    if {{$code in {{3 4}}}} {{
        set message "invoked \\"[lindex {{break continue}} $code-3]\\" outside of a loop"
        set code 1
    }}
    puts -nonewline [join [list {{}} $code $message {{}}] "{ESCAPED}"]
}}
"""


def run_by_tclsh(room, runs, as_ours):
    """How each run ends by tclsh: a status, what was put out, and the message, both as tclint says it."""
    names = [write(room, run.text, f"{at}.tcl") for at, run in enumerate(runs)]
    write(room, EACH_BY_TCLSH, "each.tcl")
    got = Program("tclsh").run(["each.tcl", *names], room)
    parts = got.stdout.split(BETWEEN)
    if got.status != 0 or len(parts) != 3 * len(runs) + 1:
        raise Wrong(f"tclsh ended with status {got.status} after {len(parts) // 3} of {len(runs)} scripts: {got.stderr}")
    ends = zip(parts[::3], parts[1::3], parts[2::3])
    return [(int(code), as_ours(out), as_ours(message) + b"\n" if code != b"0" else b"") for out, code, message in ends]


def number_behind(words, name, otherwise):
    """The number behind an option, if the option is there."""
    return int(words[words.index(name) + 1]) if name in words else otherwise


def judge_all(count, scripts_from, judge):
    """Judges scripts in batches, and tells what is wrong and how far it is. `scripts_from` makes so many scripts from a place on, and `judge`
    tells what is wrong with some. Answers how many passed and failed."""
    tested = Program(os.environ.get("TCLINT") or f"{TOP}/crates/tclint/out/tclint")
    begun, done, failed = time.monotonic(), 0, 0

    def batch(first):
        size = min(TOGETHER, count - first)
        with tempfile.TemporaryDirectory(prefix="tclint-batch-") as room:
            try:
                return size, list(judge(tested, room, scripts_from(first, size)))
            except Wrong as wrong:  # tclsh ends by itself at a text of two gigabytes, say
                return size, [f"the batch from {first} on: {wrong}"]

    with ThreadPoolExecutor(PROCESSORS) as pool:
        for size, wrong in pool.map(batch, range(0, count, TOGETHER)):
            done, failed = done + size, failed + len(wrong)
            for text in wrong:
                print(f"FAIL {text}", flush=True)
            if done % TOLD_EACH == 0:
                print(f"{done} of {count} scripts, {failed} failed, {time.monotonic() - begun:.0f} s", flush=True)
    return count - failed, failed
