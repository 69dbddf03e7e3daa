"""Checks of what README.md and docs/MANUAL.md show of the shell and of sessions: each block of lines that begins with `$ `.

Behind `$ ` stands a command of the shell, and then what it puts out on both outputs, in a folder in which `tclint` and `tclwhere` are the
programs. `$ cat NAME` shows a file, which is written where it isn't there yet. In a session `% ` is the prompt and what
stands behind it is typed, as are the lines that a text goes on with, and the one behind `gets stdin`.
"""
import os
import re
import subprocess

from program import SECONDS, TOP, Wrong, check
from where import is_left_out, tclwhere

PAGES = ("README.md", "docs/MANUAL.md")
BLOCK = re.compile(r"^```(?:console)?\n(\$ .*?)^```$", re.MULTILINE | re.DOTALL)
STEP = re.compile(r"^\$ (.*)\n((?:(?!\$ ).*\n)*)", re.MULTILINE)


def blocks():
    """Each block with its name, a page and a number."""
    found = []
    for page in PAGES:
        with open(f"{TOP}/{page}", encoding="utf-8") as file:
            texts = BLOCK.findall(file.read())
        found += [(f"{os.path.basename(page)}-{at}", text) for at, text in enumerate(texts, 1)]
    return found


def session(lines):
    """What is typed, and what a session then writes, of the lines that a terminal shows."""
    typed, written, waiting = [], "", 0
    for line in lines.splitlines():
        if waiting > 0 or line.startswith("% "):
            text = line if waiting > 0 else line[2:]
            written += "% " if waiting == 0 else ""
            waiting = max(waiting, 0) + text.count("{") - text.count("}")
            typed.append(text)
            if text.startswith("gets stdin"):
                waiting = -1
        elif waiting < 0:
            typed.append(line)
            waiting = 0
        else:
            written += f"{line}\n"
    return "".join(f"{text}\n" for text in typed), written


def run(command, room, stdin):
    path = f"{room}/bin:{os.environ['PATH']}"
    environment = dict(os.environ, PATH=path, LC_ALL="C.UTF-8")
    words = {"input": stdin.encode(), "stdout": subprocess.PIPE, "stderr": subprocess.STDOUT, "timeout": SECONDS, "check": False}
    return subprocess.run(["sh", "-c", command], cwd=room, env=environment, **words).stdout.decode()


def stripped(text):
    """The lines without spaces at their ends, which an editor may take away."""
    return [line.rstrip() for line in text.rstrip().splitlines()]


def look(command, shown, room):
    named = command.split()
    if named[0] == "cat" and len(named) == 2 and not os.path.exists(f"{room}/{named[1]}"):
        with open(f"{room}/{named[1]}", "w", encoding="utf-8") as file:
            file.write(shown)
        return
    stdin, written = session(shown) if shown.startswith("% ") and len(named) == 1 else ("", shown)
    got = run(command, room, stdin)
    if stripped(got) != stripped(written):
        raise Wrong(f"{command}: {got!r}, and not {written!r}")


def transcript_check(name, text):
    @check(f"shell/{name}")
    def _(tested, room):
        if "tclwhere" in text and is_left_out():
            return False
        os.mkdir(f"{room}/bin")
        for name, program in (("tclint", tested), ("tclwhere", tclwhere())):
            for folder in ("bin/", ""):
                os.symlink(program.path, f"{room}/{folder}{name}")
        for command, shown in STEP.findall(text):
            look(command, shown, room)


for name, text in blocks():
    transcript_check(name, text)


@check("shell/each-block-is-read")
def _(tested, room):
    """No line of a page shows the shell elsewhere."""
    for page in PAGES:
        with open(f"{TOP}/{page}", encoding="utf-8") as file:
            text = file.read()
        lines = re.findall(r"^\$ ", text, re.MULTILINE)
        steps = [step for block in BLOCK.findall(text) for step in STEP.findall(block)]
        if len(lines) != len(steps):
            raise Wrong(f"{page} has {len(lines)} commands, of which {len(steps)} are tests")
