"""The program under test: how it is run, what a run must end with, and the list of checks, which the modules beside this one make."""
import os
import select
import subprocess
import tempfile
import time

USAGE = b"usage: tclint ?-tcl9? ?-budget N? ?-slice N? ?file arg ...?\n"
IO_FAULT = b"read or write failed\n"
SECONDS = 180  # a starved machine takes long
TOP = os.path.dirname(os.path.dirname(os.path.realpath(__file__)))


class Wrong(Exception):
    """What a test found wrong."""


class Result:
    """How a run ended. A status below 0 is a signal's number."""

    def __init__(self, status, stdout, stderr):
        self.status, self.stdout, self.stderr = status, stdout or b"", stderr or b""


class Program:
    """A program under test, with what it finds in its environment beyond the usual."""

    def __init__(self, path, settings=None, seconds=SECONDS):
        self.path = os.path.abspath(path) if os.path.exists(path) else path
        self.settings, self.seconds = settings or {}, seconds

    def is_there(self):
        return subprocess.run(["sh", "-c", 'command -v "$0"', self.path], stdout=subprocess.DEVNULL).returncode == 0

    def run(self, words, cwd, stdin=b"", stdout=subprocess.PIPE, stderr=subprocess.PIPE, by=()):
        """Runs it on words; `by` are the words of a command that starts it."""
        return self.end(self.start(words, cwd, stdout, stderr, by), stdin)

    def start(self, words, cwd, stdout=subprocess.PIPE, stderr=subprocess.PIPE, by=()):
        return subprocess.Popen(
            [*by, self.path, *words],
            cwd=cwd,
            env=dict(os.environ, LC_ALL="C.UTF-8", **self.settings),
            stdin=subprocess.PIPE,
            stdout=stdout,
            stderr=stderr,
        )

    def end(self, started, stdin=b""):
        """Gives what is left of the input to a run, and waits for its end."""
        try:
            out, err = started.communicate(stdin, timeout=self.seconds)
        except subprocess.TimeoutExpired:
            started.kill()
            started.communicate()
            raise Wrong(f"no end after {self.seconds} seconds") from None
        return Result(started.returncode, out, err)


def shown(text):
    return repr(text) if len(text) <= 300 else f"{text[:120]!r} .. {text[-120:]!r} ({len(text)} bytes)"


def expect(got, status, stdout=b"", stderr=b""):
    """Raises Wrong where a run ended otherwise."""
    pairs = [("status", status, got.status), ("stdout", stdout, got.stdout), ("stderr", stderr, got.stderr)]
    show = lambda it: shown(it) if isinstance(it, bytes) else it
    wrong = [f"{name}: expected {show(wanted)}, got {show(it)}" for name, wanted, it in pairs if wanted != it]
    if wrong:
        raise Wrong("\n    ".join(wrong))


CHECKS = []


def check(name):
    """Lists a check: a function of the program and a folder of its own."""

    def listed(function):
        def in_room(tested):
            with tempfile.TemporaryDirectory(prefix="tclint-check-") as room:
                return function(tested, room)

        CHECKS.append((name, in_room))
        return function

    return listed


def checks():
    return list(CHECKS)


def write(room, text, name="script.tcl"):
    with open(os.path.join(room, name), "wb") as file:
        file.write(text.encode() if isinstance(text, str) else text)
    return name


def run_text(tested, room, text, **how):
    """Runs a script's text from a file."""
    return tested.run([write(room, text)], room, **how)


def by_shell(before):
    """The command that starts the program after a line of the shell, or with a redirection behind it."""
    return ["sh", "-c", before]


def run_by_bytes(tested, room, words, stdin):
    """Runs the program on an input that comes a byte at a time."""
    started = tested.start(words, room)
    try:
        for byte in stdin:
            os.write(started.stdin.fileno(), bytes([byte]))
            time.sleep(0.002)
    except BrokenPipeError:
        pass
    return tested.end(started)


def answered(device, size):
    """So many bytes of a device; fewer where they don't come in time. None are there beyond them."""
    read = b""
    ends = time.monotonic() + SECONDS
    while len(read) < size and time.monotonic() < ends:
        if select.select([device], [], [], 0.2)[0]:
            taken = os.read(device.fileno(), 4096)
            if not taken:
                break
            read += taken
    if size == 0 and select.select([device], [], [], 0.05)[0]:
        read += os.read(device.fileno(), 4096)
    return read
