"""Case files: a script, and what the program must do with it. README.md describes the format."""
import os
import re

SECTION = re.compile(r"^--- (script|stdin|options|args|stdout|stderr|status|own|note)(?: (.*))?$")
ESCAPE = re.compile(r"\\(?:([nrt\\])|x([0-9a-fA-F]{2}))")
LETTERS = {"n": b"\n", "r": b"\r", "t": b"\t", "\\": b"\\"}


class Case:
    """One case. Texts are bytes, as the program reads and writes them."""

    def __init__(self, path):
        self.path = path
        self.title = ""
        self.script = None
        self.stdin = b""
        self.options, self.args = [], []
        self.stdout = self.stderr = b""
        self.status = 0
        self.own = None
        self.is_beginning = False


def unescaped(text):
    """The bytes of an escaped section: line ends are dropped, and escapes stand for bytes."""
    text = text.replace("\n", "")
    parts, at = [], 0
    for found in ESCAPE.finditer(text):
        letter, code = found.groups()
        parts.append(text[at:found.start()].encode())
        parts.append(LETTERS[letter] if letter else bytes([int(code, 16)]))
        at = found.end()
    return b"".join(parts) + text[at:].encode()


def section_bytes(lines, flags):
    text = "".join(line + "\n" for line in lines)
    if "escaped" in flags:
        return unescaped(text)
    return (text[:-1] if "no-newline" in flags else text).encode()


def sections_of(text):
    """The title's lines, and then each section as its name, the words behind the name, and its lines."""
    title, found = [], []
    lines = text.split("\n")
    for line in lines[:-1] if lines[-1] == "" else lines:
        head = SECTION.match(line)
        if head:
            found.append((head.group(1), (head.group(2) or "").strip(), []))
        elif line.startswith("--- "):
            raise ValueError(f"no section is called so: {line}")
        elif found:
            found[-1][2].append(line)
        else:
            title.append(line)
    return title, found


def load(path):
    """Reads one case. A file that isn't one is a ValueError."""
    case = Case(path)
    with open(path, encoding="utf-8", newline="") as file:
        title, sections = sections_of(file.read())
    case.title = " ".join(title).strip()
    for name, rest, lines in sections:
        if name in ("script", "stdin", "stdout", "stderr"):
            setattr(case, name, section_bytes(lines, rest.split()))
            case.is_beginning |= name == "stdout" and "prefix" in rest.split()
        elif name in ("options", "args"):
            setattr(case, name, lines)
        elif name == "status":
            case.status = int(rest or lines[0])
        elif name == "own":
            case.own = " ".join([rest, *lines]).strip()
    return case


def paths_below(folder):
    """The case files of a folder and of the folders in it, in order."""
    found = []
    for at, folders, names in os.walk(folder):
        folders.sort()
        found += [os.path.join(at, name) for name in sorted(names) if name.endswith(".case")]
    return found
