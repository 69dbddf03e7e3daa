"""Runs in which a small library, preloaded into the program, refuses a growth or has a standard stream fail."""
import os
import shutil
import subprocess

from program import IO_FAULT, Program, Wrong

HERE = os.path.dirname(os.path.realpath(__file__))
MEMORY = b"out of memory\n"
FLAGS = "-O2 -shared -fPIC -nostdlib -fno-builtin -fno-stack-protector".split()
# rows with more growths, of which one has two million, are swept at both ends, and at so many places spread over all
MOST, END, SPREAD = 2000, 100, 600
# a stream fails behind each of its bytes in the rows whose answer or input has no more
MOST_BYTES = 300


def kit_compilers():
    """The compiler of the kit, where its command rt is on PATH."""
    kit = shutil.which("rt")
    if not kit:
        return []
    bin_folder = os.path.dirname(os.path.realpath(kit))
    return [os.path.normpath(f"{bin_folder}/../toolchain/bin/clang")]


def compilers():
    """The compilers that are there, of the one that CC names, the usual ones, and that of the kit."""
    found = [os.environ["CC"]] if os.environ.get("CC") else []
    found += ["cc", "gcc", "clang", *kit_compilers()]
    return [word for word in found if shutil.which(word.split()[0])]


def build(folder, tried):
    """Builds the library by the first of these compilers that can, with its own linker or with LLVM's."""
    library = f"{folder}/refuse.so"
    for compiler in tried:
        for linker in ([], ["-fuse-ld=lld"]):
            words = [*compiler.split(), *FLAGS, *linker, "-o", library, f"{HERE}/refuse.c"]
            if subprocess.run(words, capture_output=True, check=False).returncode == 0:
                return library
    raise Wrong(f"no C compiler has built refuse.c; tried: {', '.join(tried) or 'none, none is there'}")


def places(count):
    """Which of so many growths are refused; the last is one that isn't there."""
    growths = range(1, count + 2)
    if count <= MOST:
        return growths
    spread = {growths[at * (count - 1) // (SPREAD - 1)] for at in range(SPREAD)}
    return sorted({*growths[:END], *spread, *growths[-END:]})


class Refusing:
    """The program with the library; its runs go side by side in a pool, and are counted."""

    def __init__(self, path, library, pool):
        self.path, self.library, self.pool = path, library, pool
        self.runs = 0

    def run(self, row, **settings):
        named = {f"TCLINT_{name.upper()}": str(value) for name, value in settings.items()}
        tested = Program(self.path, {"LD_PRELOAD": self.library, **named})
        return tested.run(row.words, row.room, row.stdin)

    def each(self, what, numbers, look):
        """Calls look with each number, side by side, and raises Wrong with the first that was wrong."""

        def one(number):
            try:
                look(number)
            except Wrong as fault:
                return f"{what} {number}: {fault}"

        numbers = list(numbers)
        self.runs += len(numbers)
        wrong = [told for told in self.pool.map(one, numbers) if told]
        if wrong:
            raise Wrong(f"{len(wrong)} of {len(numbers)} runs, the first at {wrong[0]}")

    # ---- growths

    def count(self, row):
        """How many growths the row has where none is refused."""
        note = f"{row.room}/growths"
        got = self.run(row, growths=note)
        self.runs += 1
        if not row.is_whole(got):
            raise Wrong("another answer where nothing is refused")
        with open(note, encoding="ascii") as file:
            count = int(file.read())
        if count == 0:
            raise Wrong("no growth met the library")
        return count

    def sweep(self, row, later):
        """Refuses each growth in turn, up to the first that isn't there; `later`: and all behind it."""
        count = self.count(row)

        def look(growth):
            got = self.run(row, refuse=growth, refuse_later=int(later))
            if growth <= count:
                row.look(got, 3, MEMORY)
            elif not row.is_whole(got):
                raise Wrong("another answer where nothing is refused")

        self.each("growth", places(count), look)

    # ---- devices

    def output_fails(self, row):
        """Standard output fails behind each of its bytes: so many are written, and the run ends."""
        whole = row.answer.stdout

        def look(size):
            got = self.run(row, fail=1, fail_after=size)
            row.look(got, 4, IO_FAULT)
            if got.status != 4 or got.stdout != whole[:size]:
                raise Wrong(f"status {got.status}, {len(got.stdout)} bytes were written")

        self.each("byte", range(min(len(whole), MOST_BYTES)), look)

    def errors_fail(self, row):
        """So does standard error. Where its last line can't be written the status stays."""
        whole = row.answer.stderr

        def look(size):
            got = self.run(row, fail=2, fail_after=size)
            if got.status not in (row.answer.status, 4) or got.stderr != whole[:size]:
                raise Wrong(f"status {got.status}, stderr {got.stderr!r}")
            if not row.answer.stdout.startswith(got.stdout):
                raise Wrong(f"what was put out is no beginning of the row's: {got.stdout!r}")

        self.each("byte", range(min(len(whole), MOST_BYTES)), look)

    def input_fails(self, row):
        """Standard input fails behind each of its bytes: the run gives the whole answer without it, or ends."""
        sizes = range(min(len(row.stdin), MOST_BYTES) + 1)
        self.each("byte", sizes, lambda size: row.look(self.run(row, fail=0, fail_after=size), 4, IO_FAULT))

    def devices_fail(self, row):
        self.output_fails(row)
        self.errors_fail(row)
        self.input_fails(row)
        self.runs += 1
        if not row.is_whole(self.run(row, short=1)):
            raise Wrong("another answer where each read and each write takes one byte")
