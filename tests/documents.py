"""Checks of what README.md and docs/MANUAL.md say of themselves, of the commands and of the sources: links, examples, usages, lists."""
import ast
import glob
import os
import re
import sys

import casefile
from program import TOP, Wrong, check, expect, run_text
from remarks import tclsh_of_8_6

PAGES = ("README.md", "docs/MANUAL.md")
EXAMPLE = re.compile(r"^```tcl (\S+)( own)?\n(.*?)^```$", re.MULTILINE | re.DOTALL)
MARKS = ("=> ", "<= ", "!> ")


def page(name):
    with open(f"{TOP}/{name}", encoding="utf-8") as file:
        return file.read()


def missing(what, wanted, found):
    """Raises Wrong where two collections differ."""
    if set(wanted) != set(found):
        raise Wrong(f"{what}: not in both: {sorted(set(wanted) ^ set(found))}")


def anchors(text):
    """The anchors of a page's headings, as they are made for links."""
    headings = re.findall(r"^#+ (.*)$", text, re.MULTILINE)
    return {re.sub(r"[^\w -]", "", heading.lower()).replace(" ", "-") for heading in headings}


@check("documents/links-lead-somewhere")
def _(tested, room):
    for name in PAGES:
        for link in re.findall(r"\]\(([^)\s]+)\)", page(name)):
            path, _, anchor = link.partition("#")
            target = os.path.normpath(os.path.join(os.path.dirname(name), path)) if path else name
            if not os.path.exists(f"{TOP}/{target}"):
                raise Wrong(f"{name}: {link} isn't there")
            if anchor and anchor not in anchors(page(target)):
                raise Wrong(f"{name}: {link} has no such heading")


# ---- the manual's examples


def marked(lines, mark):
    """What the lines of an example with this mark say; without a mark, the script."""
    found = [line[3:] if mark else line for line in lines if (line[:3] if line[:3] in MARKS else "") == mark]
    return "".join(line + "\n" for line in found).encode()


@check("manual/examples-are-cases")
def _(tested, room):
    examples = {name: text for name, _, text in EXAMPLE.findall(page("docs/MANUAL.md"))}
    folder = f"{TOP}/tests/cases/manual"
    names = {os.path.basename(path)[: -len(".case")] for path in casefile.paths_below(folder)}
    missing("examples", names, examples)
    for name, text in examples.items():
        case, lines = casefile.load(f"{folder}/{name}.case"), text.splitlines()
        parts = [case.script, case.stdout, case.stdin, case.stderr]
        if parts != [marked(lines, mark) for mark in ("", *MARKS)]:
            raise Wrong(f"the case is another: {name}")


@check("documents/each-command-has-an-example")
def _(tested, room):
    scripts = [line for _, _, text in EXAMPLE.findall(page("docs/MANUAL.md")) for line in text.splitlines() if line[:3] not in MARKS]
    begins = set(re.findall(r"(?:^|[\[{};\"])\s*([a-z]+)\b", "\n".join(scripts), re.MULTILINE))
    got = run_text(tested, room, "puts [info commands]\n")
    wanting = [name for name in got.stdout.decode().split() if name not in begins]
    if got.status or wanting:
        raise Wrong(f"no example has these: {wanting}")


@check("documents/own-is-marked-in-both")
def _(tested, room):
    examples = EXAMPLE.findall(page("docs/MANUAL.md"))
    cases = {name: casefile.load(f"{TOP}/tests/cases/manual/{name}.case") for name, _, _ in examples}
    missing("own", [name for name, own, _ in examples if own], [name for name, case in cases.items() if case.own is not None])


@check("documents/own-is-otherwise-in-tclsh")
def _(tested, room):
    """Left out where there is no tclsh 8.6."""
    tclsh = tclsh_of_8_6(room)
    if not tclsh:
        return False
    for name, own, _ in EXAMPLE.findall(page("docs/MANUAL.md")):
        case = casefile.load(f"{TOP}/tests/cases/manual/{name}.case")
        got = run_text(tclsh, room, case.script, stdin=case.stdin)
        same = (got.status, got.stdout) == (case.status, case.stdout) and got.stderr.startswith(case.stderr.rstrip(b"\n"))
        if same == bool(own):
            raise Wrong(f"{name}: tclsh does {'the same' if same else 'otherwise'}")


@check("documents/instead-is-tried")
def _(tested, room):
    """What the manual's table writes in place of commands that are left out stands in a case, as it is written."""
    rows = page("docs/MANUAL.md").split("| In `tclsh` | Here |\n|---|---|\n")[1].split("\n\n")[0].splitlines()
    here = [text for row in rows for text in re.findall(r"`([^`]+)`", row.replace("\\|", "/").split("|")[2])]
    scripts = [text for text in here if "$" in text and not text.startswith("tclint ") and ".." not in text]
    tried = casefile.load(f"{TOP}/tests/cases/sentences/instead-of-commands.case").script.decode()
    wanting = [text for text in scripts if text not in tried]
    if len(scripts) < 10 or wanting:
        raise Wrong(f"of {len(scripts)} these aren't tried: {wanting}")


# ---- the commands


@check("manual/count-of-commands")
def _(tested, room):
    """README.md tells how many commands there are."""
    got = run_text(tested, room, "puts [llength [info commands]]\n")
    told = re.search(r"all rules of Tcl's syntax, and (\d+) commands", page("README.md"))
    expect(got, 0, f"{told[1]}\n".encode() if told else b"not told")


@check("manual/names-every-usage")
def _(tested, room):
    """The usage of each command and of each subcommand stands in the manual."""
    script = """
        foreach name $::names {if {$name ne "exit"} {lappend calls $name}}
        foreach name {array dict info string} {
            catch {$name nosuch} told
            set at [string first "must be " $told]
            set names [split [string map {", or " , ", " ,} [string range $told $at+8 end]] ,]
            foreach subcommand $names {lappend calls "$name $subcommand"}
        }
        foreach call $calls {
            foreach words {{} {{}} {a b c d e f g h i}} {
                if {[catch {eval $call $words} told] && [string match "wrong # args: should be*" $told]} {puts $told}
            }
        }
    """
    # in a procedure, since what is called may set variables
    got = run_text(tested, room, f"set names [info commands]\nproc tell {{}} {{{script}}}\ntell\n")
    usages = set(re.findall(r'should be "(.*)"$', got.stdout.decode(), re.MULTILINE))
    manual = " ".join(page("docs/MANUAL.md").split())
    wanting = sorted(usage for usage in usages if f"`{usage}`" not in manual and " subcommand ?arg" not in usage)
    if got.status or len(usages) < 80 or wanting:
        raise Wrong(f"{got.stderr.decode()}, of {len(usages)} usages these are wanting: {wanting}")


# ---- what README.md says of the sources


def sources(crate):
    return "\n".join(page(os.path.relpath(path, TOP)) for path in sorted(glob.glob(f"{TOP}/crates/{crate}/src/**/*.rt", recursive=True)))


def has_contract(crate, function, contract):
    """Whether a function of a crate, or a law of it, has a contract of this name."""
    text = sources(crate)
    bodies = re.findall(rf"^ *pub fn {function}\b(.*?)^ *\{{$", text, re.MULTILINE | re.DOTALL)
    return any(re.search(rf"\bensures {contract} \{{", body) for body in bodies)


CONTRACTS = [
    ("`report` of `run_with` and of `run_sliced` in `tcl_interp`", "tcl_interp", "report", ("run_with", "run_sliced", "run")),
    ("`run` of `Interp::eval` in `tcl_interp`", "tcl_interp", "run", ("eval",)),
    ("`goes` of `Run::go` in `tcl_interp`", "tcl_interp", "goes", ("go",)),
    ("`tells` of `session_with` in `tcl_shell`", "tcl_shell", "tells", ("session_with", "session")),
    ("`follows` of `run` in `tcl_run`", "tcl_run", "follows", ("run",)),
]


@check("documents/contracts-are-there")
def _(tested, room):
    """The contracts that carry the promise have the names that README.md gives."""
    text = page("README.md")
    rows = text.split("| Of what | Contract |\n|---|---|\n")[1].split("\n\n")[0].splitlines()
    told = [row for row in rows if not any(sentence in row for sentence, *_ in CONTRACTS)]
    if len(rows) != len(CONTRACTS) + 1 or len(told) != 1 or "`parts_add_up` in the `laws` of `tcl_vm`" not in told[0]:
        raise Wrong(f"these aren't the contracts that are looked for: {told}")
    for sentence, crate, contract, functions in CONTRACTS:
        for function in functions:
            if not has_contract(crate, function, contract):
                raise Wrong(f"{sentence}: {function} has none")
    if "pub fn parts_add_up()" not in page("crates/tcl_vm/src/laws.rt"):
        raise Wrong("tcl_vm has no law parts_add_up")


@check("documents/one-kit-is-named")
def _(tested, room):
    told = re.findall(r"`(rattle-kit-\w+ logic [0-9a-f]+)` \(`rt version`\)", page("README.md"))
    measured = re.findall(r"^`rt version`: `(.*)`$", page("docs/GATE.md"), re.MULTILINE)
    if len(told) != 1 or told != measured:
        raise Wrong(f"README.md names {told}, and docs/GATE.md {measured}")


@check("documents/minutes-are-those-that-were-measured")
def _(tested, room):
    told = re.search(r"which took (\d+) minutes from nothing", page("README.md"))
    measured = re.search(r"^`rt all check --jobs 4`, .* takes (\d+) min from nothing on 4 cores", page("docs/GATE.md"), re.MULTILINE)
    if not told or not measured or told[1] != measured[1]:
        raise Wrong("README.md and docs/GATE.md tell other minutes")


def stands_on():
    """The crates of crates.txt, each with those that it stands on."""
    lines = [line for line in page("crates.txt").splitlines() if line and not line.startswith("#")]
    return {name: below.split() for name, _, below in (line.partition(":") for line in lines)}


@check("documents/crates-of-the-kit")
def _(tested, room):
    told = re.search(r"the contracts of\s+the crates (.*?) that come with the kit", page("README.md"), re.DOTALL)
    crates = stands_on()
    missing("crates of the kit", re.findall(r"`(\w+)`", told[1]), {name for below in crates.values() for name in below} - set(crates))


@check("documents/crates-without-tests-of-their-own")
def _(tested, room):
    """Those that no unit test, no row and no refused call uses."""
    users = [name for name in stands_on() if name.endswith("_tests")] + ["tcl_rows", "tcl_refusals"]
    used = set(re.findall(r"\b(\w+)::", "\n".join(sources(user) for user in users)))
    told = re.search(r"Of (`tcl_arguments`.*?) there are no tests but", page("README.md"), re.DOTALL)
    tried_by_run = {"tclint", "tclwhere", "tcl_where"}
    without_code = {"tcl_laws"}
    # of this one the tests know a type alone
    type_alone = {"tcl_steps"}
    found = set(stands_on()) - used - set(users) - tried_by_run - without_code | type_alone
    missing("crates without tests", re.findall(r"`(\w+)`", told[1]), found)


@check("documents/a-dozen-examples")
def _(tested, room):
    if len(glob.glob(f"{TOP}/examples/*.tcl")) != 12 or "a dozen scripts" not in page("README.md"):
        raise Wrong("there are more or fewer")


# ---- what the tests and the released programs need


@check("documents/tests-need-python-alone")
def _(tested, room):
    if sys.version_info < (3, 10):
        return False
    own = {os.path.basename(path)[:-3] for path in glob.glob(f"{TOP}/tests/*.py")}
    for path in glob.glob(f"{TOP}/tests/*.py") + [f"{TOP}/tests/run"]:
        with open(path, encoding="utf-8") as file:
            steps = list(ast.walk(ast.parse(file.read())))
        names = [alias.name for step in steps if isinstance(step, ast.Import) for alias in step.names]
        names += [step.module for step in steps if isinstance(step, ast.ImportFrom)]
        wanting = {name.split(".")[0] for name in names} - own - sys.stdlib_module_names
        if wanting:
            raise Wrong(f"{path} needs {wanting}")


@check("documents/what-a-released-program-needs")
def _(tested, room):
    """x86-64, and of libraries the GNU C library alone, no version later than README.md says."""
    told = re.search(r"x86-64 Linux with the GNU C library, (\d+)\.(\d+) or later", page("README.md"))
    for name in ("tclint", "tclwhere"):
        if not os.path.exists(f"{TOP}/release/{name}"):
            return False
        with open(f"{TOP}/release/{name}", "rb") as file:
            program = file.read()
        if program[:5] != b"\x7fELF\x02" or program[18:20] != b"\x3e\x00":
            raise Wrong(f"{name} is no program for x86-64")
        versions = {tuple(map(int, found.split(b"."))) for found in re.findall(rb"\0GLIBC_([\d.]+)", program)}
        if max(versions)[:2] != (int(told[1]), int(told[2])):
            raise Wrong(f"{name} needs {max(versions)}")
        missing("libraries", [b"libc.so.6"], re.findall(rb"\0([\w+.-]+\.so[\w.]*)(?=\0)", program))
