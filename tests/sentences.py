"""Checks of sentences of docs/MANUAL.md that no case file can say: when outputs are written, pipes, terminals, and how deep calls go."""
import os
import pty
import re
import termios

from program import IO_FAULT, TOP, Result, Wrong, answered, by_shell, check, expect, run_text, write

TOO_DEEP = "too many nested evaluations (infinite loop?)"


# ---- outputs, pipes and terminals


@check("sentences/output-is-written-at-once")
def _(tested, room):
    script = 'puts -nonewline "name? "; puts -nonewline stderr "(a word) "; puts "hello, [gets stdin]"'
    started = tested.start([write(room, script)], room)
    try:
        seen = answered(started.stdout, 6), answered(started.stderr, 9)
    finally:
        got = tested.end(started, b"ann\n")
    if seen != (b"name? ", b"(a word) "):
        raise Wrong(f"before the input is there: {seen}")
    expect(got, 0, b"hello, ann\n")


@check("sentences/script-out-of-a-pipe-leaves-nothing-to-read")
def _(tested, room):
    expect(tested.run(["/dev/stdin", "a"], room, stdin=b"puts <[gets stdin]>[eof stdin]$argv\nputs [gets stdin x]\n"), 0, b"<>1a\n-1\n")


@check("sentences/reader-that-goes-away")
def _(tested, room):
    """No catch sees it, and the line of the error may be dropped."""
    script = "for {set i 1} {$i <= 100000} {incr i} {catch {puts $i}}\nputs stderr no\nexit 7\n"
    for redirection, wanted in ("", IO_FAULT), ("2>/dev/null", b""):
        by = by_shell(f'("$0" "$@" {redirection}; echo "status $?" >&2) | head -n 2')
        expect(run_text(tested, room, script, by=by), 0, b"1\n2\n", wanted + b"status 4\n")


def on_terminal(tested, room, terminal, typed, size):
    """How a session ends of which a terminal is input and output, behind so many bytes of output and a control-D. It repeats nothing."""
    master, slave = terminal
    modes = termios.tcgetattr(slave)
    modes[1] &= ~termios.OPOST
    modes[3] &= ~termios.ECHO
    termios.tcsetattr(slave, termios.TCSANOW, modes)
    started = tested.start([], room, stdout=slave, by=by_shell(f'exec "$0" "$@" <{os.ttyname(slave)}'))
    os.write(master, typed)
    with os.fdopen(os.dup(master), "rb", buffering=0) as device:
        written = answered(device, size)
    os.write(master, b"\x04")
    ended = tested.end(started)
    return Result(ended.status, written, ended.stderr)


@check("sentences/session-at-a-terminal")
def _(tested, room):
    """Prompts and results, but no history (control-P) and no editing of lines (control-A). Left out where there are no terminals."""
    try:
        terminal = pty.openpty()
    except OSError:
        return False
    typed = b"set x {a\nb}\ngets stdin y\nsome words\n\x10\n\x01set y\nset y\n"
    wanted = b"% a\nb\n% 10\n% % % some words\n% "
    try:
        got = on_terminal(tested, room, terminal, typed, len(wanted))
    finally:
        for end in terminal:
            os.close(end)
    expect(got, 0, wanted, b'invalid command name "\x10"\ninvalid command name "\x01set"\n')


# ---- how deep procedures may call themselves

ROW = re.compile(r"^\| (?:as|in) [^|]*\| ([^|]*) \| (\d+) \|$", re.MULTILINE)


def depths():
    """What the manual's table says: each form of a call of f, and how deep it goes."""
    with open(f"{TOP}/docs/MANUAL.md", encoding="utf-8") as file:
        rows = ROW.findall(file.read())
    forms = [(form.replace("proc f {} {..; f}", "f"), int(deep)) for row, deep in rows for form in re.findall(r"`([^`]*)`", row)]
    if len(rows) != 4 or len(forms) != 7:
        raise Wrong(f"the table is another: {rows}")
    # a loop's script is as deep as that of if
    return [*forms, ("while 1 {f}", 500), ("foreach x 1 {f}", 500), ("for {} 1 {} {f}", 500)]


@check("sentences/how-deep-procedures-call-themselves")
def _(tested, room):
    """Where the file calls it first: it is entered so many times, and once more is the error."""
    for form, deep in depths():
        script = f"set n 0\nproc f {{}} {{incr ::n; puts $::n; {form.replace('{..}', '1')}}}\nf\n"
        wanted = "".join(f"{count}\n" for count in range(1, deep + 1))
        try:
            expect(run_text(tested, room, script), 1, wanted.encode(), f"{TOO_DEEP}\n".encode())
        except Wrong as what:
            raise Wrong(f"{form}: {what}") from None


@check("sentences/a-loop-has-no-depth")
def _(tested, room):
    script = "proc f {} {while {[incr i] <= 100000} {foreach x 1 {if 1 {set n [expr {$i}]}}}; return $n}\nputs [f]\n"
    expect(run_text(tested, room, script), 0, b"100000\n")
