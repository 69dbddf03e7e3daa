"""Checks of devices that fail and of memory that isn't there."""
import os
import select

from program import IO_FAULT, SECONDS, Result, Wrong, answered, by_shell, check, expect, run_text, shown, write

CLOSED_OUT = by_shell('exec "$0" "$@" >&-')
CLOSED_ERR = by_shell('exec "$0" "$@" 2>&-')


def full():
    return open("/dev/full", "wb", buffering=0)


@check("output/full")
def _(tested, room):
    with full() as device:
        expect(run_text(tested, room, "set x 1\nputs $x\nputs b\n", stdout=device), 4, b"", IO_FAULT)


@check("output/full-and-caught")
def _(tested, room):
    with full() as device:
        expect(run_text(tested, room, "catch {puts a}\nputs stderr no\n", stdout=device), 4, b"", IO_FAULT)


@check("output/full-and-nothing-to-write")
def _(tested, room):
    with full() as device:
        expect(run_text(tested, room, "set x 1\n", stdout=device), 0)


@check("output/closed")
def _(tested, room):
    expect(run_text(tested, room, "puts a\n", by=CLOSED_OUT), 4, b"", IO_FAULT)


@check("output/reader-gone")
def _(tested, room):
    reading, writing = os.pipe()
    os.close(reading)
    try:
        expect(run_text(tested, room, "puts a\nputs b\n", stdout=writing), 4, b"", IO_FAULT)
    finally:
        os.close(writing)


@check("output/full-in-a-session")
def _(tested, room):
    with full() as device:
        expect(tested.run([], room, stdin=b"puts stderr no\n", stdout=device), 4, b"", IO_FAULT)


@check("output/closed-in-a-session")
def _(tested, room):
    expect(tested.run([], room, stdin=b"puts stderr no\n", by=CLOSED_OUT), 4, b"", IO_FAULT)


def wait_for_no_reader(writing):
    """Waits until nobody holds the reading end: a child of another test may do so until it runs its own program."""
    polled = select.poll()
    polled.register(writing, 0)
    polled.poll(SECONDS * 1000)


@check("output/reader-gone-in-a-session")
def _(tested, room):
    reading, writing = os.pipe()
    started = tested.start([], room, stdout=writing)
    try:
        with open(reading, "rb", buffering=0) as device:
            answered(device, 2)
        wait_for_no_reader(writing)
        os.close(writing)
        os.write(started.stdin.fileno(), b"puts a\nputs stderr no\n")
        started.stdin.close()
        err = started.stderr.read()
        status = started.wait(timeout=SECONDS)
    finally:
        started.kill()
    expect(Result(status, b"", err), 4, b"", IO_FAULT)


@check("output/full-in-mid-run")
def _(tested, room):
    # a file that may hold one block of 512 bytes (some shells: 1,024)
    small = by_shell("trap '' XFSZ; ulimit -f 1; exec \"$0\" \"$@\"")
    whole = b"".join(b"%04d\n" % i for i in range(1000))
    script = "".join("puts %04d\n" % i for i in range(1000))
    with open(f"{room}/out", "wb") as file:
        got = run_text(tested, room, script, stdout=file, by=small)
    with open(f"{room}/out", "rb") as file:
        written = file.read()
    expect(got, 4, b"", IO_FAULT)
    if not whole.startswith(written) or len(written) not in (512, 1024):
        raise Wrong(f"what was written before the fault: {shown(written)}")


@check("output/to-a-file")
def _(tested, room):
    with open(f"{room}/out", "wb") as file:
        expect(run_text(tested, room, "puts a\nputs -nonewline b\n", stdout=file), 0)
    with open(f"{room}/out", "rb") as file:
        if file.read() != b"a\nb":
            raise Wrong("the file holds something else")


@check("errors/full")
def _(tested, room):
    with full() as device:
        expect(run_text(tested, room, "puts a\nputs stderr b\nputs c\n", stderr=device), 4, b"a\n")


@check("errors/closed")
def _(tested, room):
    expect(run_text(tested, room, "puts a\nputs stderr b\nputs c\n", by=CLOSED_ERR), 4, b"a\n")


def status_stays_check(name, words, status, stdout):
    @check(f"errors/line-unwritten-{name}")
    def _(tested, room):
        write(room, "puts a\nnosuch\n")
        write(room, b"\xff", "bytes.tcl")
        with full() as device:
            expect(tested.run(words, room, stderr=device), status, stdout)
        expect(tested.run(words, room, by=CLOSED_ERR), status, stdout)


status_stays_check("message", ["script.tcl"], 1, b"a\n")
status_stays_check("budget", ["-budget", "0", "script.tcl"], 2, b"")
status_stays_check("usage", ["-budget"], 5, b"")
status_stays_check("usage-of-tcl9", ["-tcl9", "-tcl9"], 5, b"")
status_stays_check("file", ["nosuch.tcl"], 5, b"")
status_stays_check("not-utf8", ["bytes.tcl"], 5, b"")


def unwritten_check(name, words, stdin, status, stdout):
    @check(f"errors/unwritten-in-a-session-{name}")
    def _(tested, room):
        with full() as device:
            expect(tested.run(words, room, stdin=stdin, stderr=device), status, stdout)
        expect(tested.run(words, room, stdin=stdin, by=CLOSED_ERR), status, stdout)


# the message of a text's error is written by the session, the line of a status isn't
unwritten_check("message", [], b"nosuch\nputs no\n", 4, b"% ")
unwritten_check("budget", ["-budget", "0"], b"puts no\n", 2, b"% ")
unwritten_check("usage", [b"\xff"], b"puts no\n", 5, b"")


@check("errors/both-full")
def _(tested, room):
    with full() as device:
        expect(run_text(tested, room, "puts a\n", stdout=device, stderr=device), 4)


@check("input/closed")
def _(tested, room):
    closed = by_shell('exec "$0" "$@" <&-')
    expect(run_text(tested, room, "puts a\n", by=closed), 0, b"a\n")


def device_check(name, text, redirection, status, stdout=b"", stderr=IO_FAULT, words=()):
    @check(f"devices/{name}")
    def _(tested, room):
        by = by_shell(f'exec "$0" "$@" {redirection}')
        expect(tested.run([*words, write(room, text)], room, by=by), status, stdout, stderr)


# the script's file may get the number of a stream that is closed: nothing of it is read or written as the stream
device_check("input-closed-and-asked", "puts a\ngets stdin l\nputs $l\n", "<&-", 4, b"a\n")
device_check("input-closed-and-read", "puts a\nputs [read stdin]\n", "<&-", 4, b"a\n")
device_check("input-for-writing-alone", "puts a\ngets stdin l\n", "0>/dev/null", 4, b"a\n")
device_check("input-is-a-folder-and-read", "puts a; catch {read stdin}; puts b", "<.", 4, b"a\n")
device_check("input-is-a-folder-and-unasked", "puts a\n", "<.", 0, b"a\n", b"")
device_check("input-is-a-folder-in-slices", "puts a; catch {gets stdin}; puts b", "<.", 4, b"a\n", words=["-slice", "1"])
device_check("output-closed-and-nothing-to-write", "set x 1\n", ">&-", 0, stderr=b"")
device_check("output-closed-and-errors-written", "puts stderr a\nputs b\n", ">&-", 4, stderr=b"a\n" + IO_FAULT)
device_check("output-for-reading-alone", "puts a\n", "1</dev/null", 4)
device_check("output-full-in-slices", "catch {puts a}; puts stderr no", ">/dev/full", 4, words=["-slice", "1"])
device_check("errors-closed-in-slices", "puts a; catch {puts stderr b}; puts c", "2>&-", 4, b"a\n", b"", ["-slice", "1"])
device_check("all-closed", "puts a\n", "<&- >&- 2>&-", 4, stderr=b"")
device_check("all-closed-and-none-used", "set x 1\n", "<&- >&- 2>&-", 0, stderr=b"")

# ---- memory


@check("memory/text-too-large")
def _(tested, room):
    # a script of 64 MB in 40 MB of memory
    scarce = by_shell('ulimit -v 40000; exec "$0" "$@"')
    expect(run_text(tested, room, b"puts a\n# " + b"a" * 64_000_000, by=scarce), 3, b"", b"out of memory\n")


@check("memory/values-too-large")
def _(tested, room):
    # a text that doubles until nothing holds it
    scarce = by_shell('ulimit -v 200000; exec "$0" "$@"')
    script = "set x abcdefghij\nputs a\n" + "set x $x$x\n" * 40 + "puts b\n"
    expect(run_text(tested, room, script, by=scarce), 3, b"a\n", b"out of memory\n")


@check("memory/text-without-end")
def _(tested, room):
    # more than any memory holds, and no script catches that
    script = "puts a; catch {string repeat abc 9223372036854775807}; puts b\n"
    expect(run_text(tested, room, script), 3, b"a\n", b"out of memory\n")
