"""Checks of sessions, which are runs without a file."""
import os

from program import IO_FAULT, Wrong, answered, by_shell, check, expect, run_by_bytes, write

A_LONG_WORD = b"a" * 1_000_000


def session_check(name, stdin, stdout, stderr=b"", status=0, words=()):
    """A session, over an input that is there at once, from a file, and a byte at a time."""

    @check(f"session/{name}")
    def _(tested, room):
        given = stdin() if callable(stdin) else stdin
        wanted = stdout() if callable(stdout) else stdout
        write(room, given, "input")
        expect(tested.run(words, room, stdin=given), status, wanted, stderr)
        expect(tested.run(words, room, by=FROM_FILE), status, wanted, stderr)
        if len(given) < 200:
            expect(run_by_bytes(tested, room, words, given), status, wanted, stderr)


FROM_FILE = by_shell('exec "$0" "$@" <input')
UNKNOWN = b'invalid command name "nosuch"\n'

session_check("empty-input", b"", b"% ")
session_check("empty-input-with-budget", b"", b"% ", words=["-budget", "0"])
session_check("empty-lines", b"\n\n", b"% % % ")
session_check("one-text", b"puts a\n", b"% a\n% ")
session_check("no-last-newline", b"puts a", b"% a\n% ")
session_check("result", b"set x a\nset y {}\nset x\n", b"% a\n% % a\n% ")
session_check("several-commands-a-line", b"puts a; set x b\n", b"% a\nb\n% ")
session_check("state-goes-on", b"proc f x {return <$x>}\nset y a\nf $y\n", b"% % a\n% <a>\n% ")
session_check("error-and-on", b"nosuch\nputs a\n", b"% % a\n% ", UNKNOWN)
session_check("error-of-a-code", b"break\nputs a\n", b"% % a\n% ", b'invoked "break" outside of a loop\n')
session_check("error-of-a-code-by-number", b"return -code 7 -level 0 r\nputs a\n", b"% % a\n% ", b"command returned bad code: 7\n")
session_check("malformed-and-on", b"puts {a}b\nputs a\n", b"% % a\n% ", b"extra characters after close-brace\n")
session_check("text-of-lines", b"set x {a\nb}\nputs hi\n", b"% a\nb\n% hi\n% ")
session_check("text-of-lines-by-backslash", b"puts \\\na\n", b"% a\n% ")
session_check("text-of-lines-by-bracket", b"puts [\nset x 1\n]\n", b"% 1\n% ")
session_check("text-of-lines-by-quote", b'puts "a\n\nb"\n', b"% a\n\nb\n% ")
session_check("incomplete-at-the-end", b"puts a\nputs {b\n", b"% a\n% % ", b"missing close-brace\n")
session_check("incomplete-without-newline", b"puts [", b"% % ", b"missing close-bracket\n")
session_check("exit", b"puts a\nexit 3\nputs no\n", b"% a\n% ", status=3)
session_check("exit-plain", b"exit\nputs no\n", b"% ")
session_check("exit-inside", b"proc f {} {catch {exit 255}}\nf\n", b"% % ", status=255)
session_check("exit-that-is-caught", b"catch exit; puts no\n", b"% ")
session_check("budget", b"set x 1\nset y 2\n", b"% 1\n% ", b"budget spent\n", 2, ["-budget", "1"])
session_check("budget-none", b"\n# no command\nset x 1\n", b"% % % ", b"budget spent\n", 2, ["-budget", "0"])
session_check("budget-enough", b"set x 1\nset y 2\n", b"% 1\n% 2\n% ", words=["-budget", "2"])
session_check("budget-in-a-loop", b"set i 0\nwhile 1 {incr i}\n", b"% 0\n% ", b"budget spent\n", 2, ["-budget", "1000"])
session_check("words", b"puts $argv0|$argv|$argc\n", b"% tclint||0\n% ")
session_check("words-with-budget", b"puts $argv0|$argv|$argc\n", b"% tclint||0\n% ", words=["-budget", "9"])
session_check("words-with-tcl9", b"puts $argv0|$argv|$argc|[expr 010]\n", b"% tclint||0|10\n% ", words=["-tcl9"])
session_check("numbers", b"expr {010 + 1}\nset x 08\nincr x\n", b"% 9\n% 08\n% % ", b'expected integer but got "08"\n')
session_check("numbers-with-tcl9", b"expr {010 + 1}\nset x 08\nincr x\n", b"% 11\n% 08\n% 9\n% ", words=["-tcl9"])
session_check("budget-with-tcl9", b"expr 08\nset y 2\n", b"% 8\n% ", b"budget spent\n", 2, ["-tcl9", "-budget", "01"])
session_check("empty-input-with-tcl9", b"", b"% ", words=["-tcl9"])
session_check("input-taken-by-a-script", b"gets stdin l\ndata\nputs $l\n", b"% 4\n% data\n% ")
session_check("input-taken-whole", b"puts [string length [read stdin]]\nab\nc", b"% 4\n% ")
session_check("input-end-met-by-a-script", b"gets stdin l", b"% -1\n% ")
session_check("crlf", b"set x {a\r\nb}\r\nputs hi\r\n", b"% a\nb\n% hi\n% ")
session_check("crlf-by-backslash", b"puts \\\r\na\r\n", b"% a\n% ")
session_check("lone-cr", b"puts {a\rb}\r", b"% a\rb\n% ")
session_check("ill-formed", b"puts <\xff>\n\xe2\x82\n", b"% <\xef\xbf\xbd>\n% % ", b'invalid command name "\xef\xbf\xbd"\n')
session_check("past-ascii", "puts é€\U0001f600\n".encode(), "% é€\U0001f600\n% ".encode())
session_check("nul", b"puts a\0b\n\0\nputs c\n", b"% a\0b\n% % c\n% ", b'invalid command name "\0"\n')
session_check("byte-order-mark", b"\xef\xbb\xbfputs a\n", b"% % ", b'invalid command name "\xef\xbb\xbfputs"\n')
session_check("many-texts", lambda: b"set x 1\n" * 20_000, lambda: b"% 1\n" * 20_000 + b"% ")
session_check("long-text", lambda: b"puts " + A_LONG_WORD + b"\n", lambda: b"% " + A_LONG_WORD + b"\n% ")
session_check("many-lines-a-text", lambda: b"puts {" + b"ab\n" * 500 + b"}\n", lambda: b"% " + b"ab\n" * 500 + b"\n% ")


@check("session/null-device")
def _(tested, room):
    expect(tested.run([], room, by=by_shell('exec "$0" "$@" </dev/null')), 0, b"% ")


@check("session/input-closed")
def _(tested, room):
    expect(tested.run([], room, by=by_shell('exec "$0" "$@" <&-')), 4, b"% ", IO_FAULT)


@check("session/input-is-a-folder")
def _(tested, room):
    expect(tested.run([], room, by=by_shell('exec "$0" "$@" <.')), 4, b"% ", IO_FAULT)


@check("session/input-of-a-command")
def _(tested, room):
    expect(tested.run([], room, by=by_shell('printf "puts a\nputs {b\nc}\n" | "$0" "$@"')), 0, b"% a\n% b\nc\n% ")


@check("session/answers-line-by-line")
def _(tested, room):
    # the input goes on: each prompt and each answer is there before the next line is
    started = tested.start([], room)
    turns = [
        (b"", b"% "),
        (b"set x 5\n", b"5\n% "),
        (b'puts "a\n', b""),
        (b'b"\n', b"a\nb\n% "),
        (b"gets stdin\n", b""),
        (b"zz\n", b"zz\n% "),
        (b"nosuch\n", b"% "),
        (b"exit 7\n", b""),
    ]
    try:
        for line, wanted in turns:
            os.write(started.stdin.fileno(), line)
            answer = answered(started.stdout, len(wanted))
            if answer != wanted:
                raise Wrong(f"behind {line!r}: expected {wanted!r}, got {answer!r}")
    finally:
        got = tested.end(started)
    expect(got, 7, b"", UNKNOWN)
