"""The words of a `rattle check` of one crate, for the scripts that check by hand."""
import os
import shutil
import sys

ROOT = os.path.dirname(os.path.dirname(os.path.realpath(__file__)))


def kit():
    """The folder of the kit."""
    found = shutil.which("rt") or sys.exit("the command rt of the Rattle kit is not on PATH")
    return os.path.dirname(os.path.dirname(os.path.realpath(found)))


def below():
    """What each crate stands on, by its line in crates.txt."""
    with open(f"{ROOT}/crates.txt", encoding="utf-8") as lines:
        pairs = [line.partition(":") for line in lines if ":" in line and not line.startswith("#")]
    return {name.split()[0]: crates.split() for name, _, crates in pairs}


def in_order(crate, stands_on, found):
    """The crates of the repository below one, each behind those that it stands on, and then itself."""
    for it in stands_on[crate]:
        if it in stands_on and it not in found:
            in_order(it, stands_on, found)
    found.append(crate)
    return found


def begun(crate, extern):
    """The first words of a check in the crate's folder, over these libraries of the kit."""
    tools = kit()
    root = "lib" if os.path.exists(f"{ROOT}/crates/{crate}/src/lib.rt") else "main"
    words = [f"{tools}/bin/rattle", "check", "--crate-name", crate, f"src/{root}.rt", "-L", f"dependency={tools}/rlibs"]
    for it in extern:
        words += ["--extern", f"{it}={tools}/rlibs/{it}.rlib"]
    return words + ["--antt-project", f"{tools}/rattle/logic/antt-project.json", "--logic-built", f"{tools}/logic_built"]
