"""Checks of the launchers, ./tclint and ./tclwhere: which program they run, and what they say. Each has a small checkout of its own, in
which programs and the command rt are scripts that only say their names."""
import os
import re
import shutil
import subprocess

from program import TOP, USAGE, Result, Wrong, check, expect, write

RT = """#!/bin/sh
case "$1" in
all) printf 'quick pass\\n== low\\nok\\n== low\\n== tclint\\nok\\n== summary\\n'; echo "$@" >>"$CALLS" ;;
run) mkdir -p out && printf '#!/bin/sh\\necho built\\n' >out/${PWD##*/} && chmod +x out/${PWD##*/}; echo "$@" >>"$CALLS"; exit "$BUILDS" ;;
esac
"""
ECHO = '#!/bin/sh\necho "$@"\n'
BUILT = re.compile(
    rb"tclint: not built for these sources: proving the 2 crates on \d+ processors "
    rb"\(docs/GATE.md measured \d+ min from nothing on \d+ cores\), less where earlier work is kept\n"
    rb"tclint:     reading all sources, before the first proof\n"
    rb"tclint:     1 of 2 crates: low\ntclint:     2 of 2 crates: tclint\n"
    rb"tclint: building the program\ntclint: built\n"
)


def write_script(path, text):
    """Writes what is to be run, by a process of its own: a file that this process has open for writing is held, for a moment, by
    whatever another check starts just then, and can't be run as long as it is."""
    os.makedirs(os.path.dirname(path), exist_ok=True)
    subprocess.run(["sh", "-c", 'cat >"$0" && chmod 755 "$0"', path], input=text.encode(), check=True)


class Checkout:
    """A checkout with two crates, and with a release of them if it is wanted."""

    def __init__(self, room, released=True):
        self.room, self.top = room, f"{room}/top"
        for folder in ("top/crates/low/src", "top/crates/tclint/src", "top/crates/tclwhere", "top/docs", "top/tests", "bin"):
            os.makedirs(f"{room}/{folder}")
        for file in ("tclint", "tclwhere", "docs/GATE.md", "docs/tclint.1", "tests/sources"):
            subprocess.run(["cp", f"{TOP}/{file}", f"{self.top}/{file}"], check=True)
        write(self.top, "# NAME: the crates that it stands on\nlow:\ntclint: low\n", "crates.txt")
        for crate, file in (("low", "lib"), ("tclint", "main")):
            write(self.top, "old\n", f"crates/{crate}/src/{file}.rt")
        self.script("bin/rt", RT)
        if released:
            self.script("top/release/tclint", "#!/bin/sh\necho released\n")
            write(self.top, self.sum() + "\n", "release/sources.sum")

    def script(self, name, text):
        write_script(f"{self.room}/{name}", text)

    def sum(self, **environment):
        by = dict(os.environ, **environment)
        return subprocess.run([f"{self.top}/tests/sources"], env=by, stdout=subprocess.PIPE, check=True, text=True).stdout.strip()

    def change(self, text="new\n"):
        write(self.top, text, "crates/low/src/lib.rt")

    def run(self, *words, builds=0, rt="bin", launcher="tclint"):
        path = f"{self.room}/{rt}:/usr/bin:/bin"
        environment = dict(os.environ, PATH=path, CALLS=f"{self.room}/calls", BUILDS=str(builds))
        command = [f"{self.top}/{launcher}", *words]
        ran = subprocess.run(command, cwd=self.room, env=environment, stdin=subprocess.DEVNULL, capture_output=True)
        return Result(ran.returncode, ran.stdout, ran.stderr)

    def expect_untouched(self):
        """Nothing was built or kept."""
        if os.path.exists(f"{self.room}/calls") or os.path.exists(f"{self.top}/out"):
            raise Wrong("something was built or kept")

    def expect_build(self):
        got = self.run()
        if not BUILT.fullmatch(got.stderr):
            raise Wrong(f"said otherwise: {got.stderr.decode()}")
        expect(got, 0, b"built\n", got.stderr)


@check("launcher/sum")
def _(tested, room):
    checkout = Checkout(room)
    before = checkout.sum()
    os.makedirs(f"{checkout.top}/crates/low/out")
    write(checkout.top, "built", "crates/low/out/low")
    write(checkout.top, "no source", "docs/new")
    if {checkout.sum(LC_ALL="C"), checkout.sum(LC_ALL="C.UTF-8")} != {before}:
        raise Wrong("what is no source changes the sum, or the locale does")
    sums = {before}
    for name, text in (("low/src/lib.rt", "new\n"), ("low/src/other.rt", ""), ("low/specs.antt", ""), ("../crates.txt", "low:\n")):
        write(checkout.top, text, f"crates/{name}")
        sums.add(checkout.sum())
    if len(sums) != 5:
        raise Wrong("a change of a source leaves the sum")


@check("launcher/takes-the-release")
def _(tested, room):
    checkout = Checkout(room)
    expect(checkout.run(), 0, b"released\n")
    # once: what stands in release/ isn't looked at again
    shutil.rmtree(f"{checkout.top}/release")
    expect(checkout.run(), 0, b"released\n")


@check("launcher/touched-sources-are-the-same")
def _(tested, room):
    checkout = Checkout(room)
    expect(checkout.run(), 0, b"released\n")
    checkout.change("old\n")
    expect(checkout.run(), 0, b"released\n")


@check("launcher/builds-after-a-change")
def _(tested, room):
    checkout = Checkout(room)
    expect(checkout.run(), 0, b"released\n")
    checkout.change()
    checkout.expect_build()
    expect(checkout.run(), 0, b"built\n")
    checkout.change("newer\n")
    checkout.expect_build()
    checkout.change("old\n")
    expect(checkout.run(), 0, b"released\n")


@check("launcher/builds-without-a-release")
def _(tested, room):
    checkout = Checkout(room, released=False)
    checkout.expect_build()
    expect(checkout.run(), 0, b"built\n")
    with open(f"{room}/calls", encoding="utf-8") as file:
        calls = file.read()
    if calls != f"all check --jobs {len(os.sched_getaffinity(0))}\nrun -- /dev/null\n":
        raise Wrong(f"rt was called otherwise: {calls}")


@check("launcher/runs-what-rt-built")
def _(tested, room):
    checkout = Checkout(room, released=False)
    checkout.script("top/crates/tclint/out/tclint", "#!/bin/sh\necho by hand\n")
    expect(checkout.run(), 0, b"by hand\n")


@check("launcher/no-rt")
def _(tested, room):
    got = Checkout(room, released=False).run(rt="nowhere")
    expect(got, 127, b"", b"tclint: it isn't built for these sources, and the command rt of the Rattle kit, which builds it, is not on PATH\n")


@check("launcher/fails-with-the-build")
def _(tested, room):
    checkout = Checkout(room, released=False)
    got = checkout.run(builds=1)
    if not got.stderr.endswith(b"tclint: it could not be built: see above, and out/build.log\n"):
        raise Wrong(f"said otherwise: {got.stderr.decode()}")
    expect(got, 126, b"", got.stderr)


# ---- the launcher of tclwhere

WHERE_BUILDS = b"tclwhere: not built for these sources: proving and building; out/where.log says how far it is\n"


@check("launcher/where-takes-the-release")
def _(tested, room):
    checkout = Checkout(room)
    checkout.script("top/release/tclwhere", ECHO)
    expect(checkout.run("x.tcl", "a b", launcher="tclwhere"), 0, b"x.tcl a b\n")
    checkout.expect_untouched()


@check("launcher/where-builds-after-a-change")
def _(tested, room):
    checkout = Checkout(room)
    checkout.script("top/release/tclwhere", ECHO)
    checkout.change()
    expect(checkout.run("x.tcl", launcher="tclwhere"), 0, b"built\n", WHERE_BUILDS)
    with open(f"{checkout.top}/out/where.log", encoding="utf-8") as file:
        if "== tclint" not in file.read():
            raise Wrong("how far it is doesn't stand there")
    expect(checkout.run("x.tcl", launcher="tclwhere"), 0, b"built\n")
    checkout.change("newer\n")
    expect(checkout.run("x.tcl", launcher="tclwhere"), 0, b"built\n", WHERE_BUILDS)


@check("launcher/where-without-rt")
def _(tested, room):
    said = b"tclwhere: it isn't built for these sources, and the command rt of the Rattle kit, which builds it, is not on PATH\n"
    expect(Checkout(room).run("x.tcl", rt="nowhere", launcher="tclwhere"), 127, b"", said)


# ---- what the launcher answers itself

# the options of the usage, each with its value
OPTIONS = re.findall(r"\?(-\w+(?: N)?)\?", USAGE.decode())

@check("launcher/help")
def _(tested, room):
    checkout = Checkout(room, released=False)
    got = checkout.run("--help")
    expect(got, 0, got.stdout)
    lines = got.stdout.decode().splitlines()
    if lines[0] != USAGE.decode().rstrip() or re.findall(r"^  (-\w+(?: N)?)  ", got.stdout.decode(), re.MULTILINE) != OPTIONS:
        raise Wrong("these aren't the usage and the options of the program")
    if len(lines) > 24 or max(map(len, lines)) > 80:
        raise Wrong("that is more than a screen")
    checkout.expect_untouched()


def version_of(checkout):
    """What --version says of the program. All else of it is known, and it names no file."""
    got = checkout.run("--version")
    found = re.fullmatch(
        rb"tclint, an interpreter of Tcl 8\.6\nprogram: ([\w ]+)\nsources: ([0-9a-f]{64})\nproved with: (rattle-kit-\w+ logic [0-9a-f]+)\n", got.stdout
    )
    expect(got, 0, got.stdout)
    if not found or found[2].decode() != checkout.sum():
        raise Wrong(f"said otherwise: {got.stdout.decode()}")
    return found[1].decode()


def version_check(name, says, released=False, before=lambda checkout: None):
    @check(f"launcher/version-{name}")
    def _(tested, room):
        checkout = Checkout(room, released)
        before(checkout)
        if version_of(checkout) != says:
            raise Wrong(f"it isn't {says}")
        checkout.expect_untouched()


def by_hand(checkout):
    checkout.script("top/crates/tclint/out/tclint", ECHO)


version_check("of-nothing", "not built for these sources")
version_check("of-the-release", "the released one", released=True)
version_check("after-a-change", "not built for these sources", released=True, before=Checkout.change)
version_check("of-what-was-built", "built here", before=by_hand)


@check("launcher/version-of-what-ran")
def _(tested, room):
    checkout = Checkout(room)
    expect(checkout.run(), 0, b"released\n")
    if version_of(checkout) != "the released one":
        raise Wrong("what was taken of the release isn't the release")
    checkout.change()
    checkout.expect_build()
    if version_of(checkout) != "built here":
        raise Wrong("what was built isn't")


@check("launcher/its-words-in-another-place")
def _(tested, room):
    checkout = Checkout(room, released=False)
    by_hand(checkout)
    for words in (["script.tcl", "--help"], ["--help", "script.tcl"], ["--version", "x"], ["--install", "a", "b"], ["-h"], ["./--help"]):
        expect(checkout.run(*words), 0, " ".join(words).encode() + b"\n")


def expect_installed(checkout, prefix, program):
    wanted = [(f"{prefix}/bin/tclint", program, 0o755), (f"{prefix}/share/man/man1/tclint.1", f"{TOP}/docs/tclint.1", 0o644)]
    for path, original, mode in wanted:
        with open(path, "rb") as copy, open(original, "rb") as file:
            if copy.read() != file.read() or os.stat(path).st_mode & 0o777 != mode:
                raise Wrong(f"{path} is another file")
    checkout.expect_untouched()


@check("launcher/install")
def _(tested, room):
    checkout = Checkout(room)
    # twice, in a folder with a space and by a name that is no whole path
    for prefix in (f"{room}/a prefix", f"{room}/a prefix", "-p"):
        said = f"tclint: installed {prefix}/bin/tclint and {prefix}/share/man/man1/tclint.1\n"
        expect(checkout.run("--install", prefix), 0, said.encode())
        expect_installed(checkout, os.path.join(room, prefix), f"{checkout.top}/release/tclint")
    ran = subprocess.run([f"{room}/-p/bin/tclint"], capture_output=True)
    expect(Result(ran.returncode, ran.stdout, ran.stderr), 0, b"released\n")


@check("launcher/install-what-was-built")
def _(tested, room):
    checkout = Checkout(room, released=False)
    by_hand(checkout)
    expect(checkout.run("--install", "p"), 0, b"tclint: installed p/bin/tclint and p/share/man/man1/tclint.1\n")
    expect_installed(checkout, f"{room}/p", f"{checkout.top}/crates/tclint/out/tclint")


@check("launcher/install-both")
def _(tested, room):
    checkout = Checkout(room)
    checkout.script("top/release/tclwhere", ECHO)
    expect(checkout.run("--install", "p"), 0, b"tclint: installed p/bin/tclint, p/bin/tclwhere and p/share/man/man1/tclint.1\n")
    expect_installed(checkout, f"{room}/p", f"{checkout.top}/release/tclint")
    ran = subprocess.run([f"{room}/p/bin/tclwhere", "x"], capture_output=True)
    expect(Result(ran.returncode, ran.stdout, ran.stderr), 0, b"x\n")


@check("launcher/install-is-found-by-names")
def _(tested, room):
    """Where PREFIX/bin is on PATH; the manual page where there is man-db."""
    checkout = Checkout(room)
    checkout.script("top/release/tclwhere", ECHO)
    checkout.run("--install", f"{room}/p")
    environment = dict(os.environ, PATH=f"{room}/p/bin:/usr/bin:/bin")
    environment.pop("MANPATH", None)
    names = [("tclint", "released\n"), ("tclwhere x", "x\n")]
    version = subprocess.run(["sh", "-c", "man --version"], capture_output=True).stdout
    if version.startswith(b"man 2."):
        names.append(("man -w tclint", f"{room}/p/share/man/man1/tclint.1\n"))
    for command, wanted in names:
        ran = subprocess.run(["sh", "-c", command], cwd="/", env=environment, capture_output=True)
        expect(Result(ran.returncode, ran.stdout, ran.stderr), 0, wanted.encode())


@check("launcher/install-nothing")
def _(tested, room):
    checkout = Checkout(room)
    checkout.change()
    said = b"tclint: nothing is built for these sources, so there is nothing to install: ./tclint FILE builds first\n"
    expect(checkout.run("--install", "p"), 1, b"", said)
    if os.path.exists(f"{room}/p"):
        raise Wrong("a folder was made")
    checkout.expect_untouched()


@check("launcher/install-nowhere")
def _(tested, room):
    checkout = Checkout(room)
    for words in (["--install"], ["--install", ""]):
        expect(checkout.run(*words), 5, b"", b"tclint: --install wants a folder: tclint --install PREFIX\n")
    write(room, "no folder", "p")
    got = checkout.run("--install", "p")
    if not got.stderr.endswith(b"tclint: it can't be installed in p\n"):
        raise Wrong(f"said otherwise: {got.stderr.decode()}")
    expect(got, 1, b"", got.stderr)


# ---- the manual page


@check("launcher/manual-page")
def _(tested, room):
    with open(f"{TOP}/docs/tclint.1", encoding="utf-8") as file:
        page = file.read().replace("\\-", "-")
    sections = dict(re.findall(r'^\.SH "?([A-Z ]+)"?\n(.*?)(?=^\.SH|\Z)', page, re.MULTILINE | re.DOTALL))
    named = [" ".join(line.replace('"', "").split()) for line in re.findall(r"^\.TP\n\.BI? (.*)$", sections["OPTIONS"], re.MULTILINE)]
    if named != OPTIONS or re.findall(r"-\w+", sections["SYNOPSIS"]) != re.findall(r"-\w+", USAGE.decode()):
        raise Wrong(f"these aren't the options of the program: {named}")
    with open(f"{TOP}/docs/MANUAL.md", encoding="utf-8") as file:
        told = re.findall(r"^\| (\d) \| ", file.read(), re.MULTILINE)
    if re.findall(r"^\.TP\n\.B (\d)$", sections["EXIT STATUS"], re.MULTILINE) != told:
        raise Wrong("these aren't the manual's statuses")


@check("launcher/manual-page-as-groff-reads-it")
def _(tested, room):
    if not shutil.which("groff"):
        return False
    ran = subprocess.run(["groff", "-man", "-ww", "-z", "-Tascii", f"{TOP}/docs/tclint.1"], capture_output=True)
    expect(Result(ran.returncode, ran.stdout, ran.stderr), 0)
