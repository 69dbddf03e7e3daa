#!/usr/bin/env python3
"""Random scripts of loops, conditions and commands that are renamed, replaced and put back in the middle of them.

    tests/inlined.py                        the checks that tests/run runs with all others
    tests/inlined.py --count N [--seed S]   N scripts, from seed S on
    tests/inlined.py --names                each name changed in each place of each loop
    tests/inlined.py --tclsh ..             either of these, compared with tclsh

A command whose words are literal is inlined: its code stands in place, as long as its name stands for its page. The same
command under a name that begins with :: is called. So each script is run as it is, and once more with :: before each of
these names, and one of the two in slices: status, output and message must be the same, whatever the budget and the slice.
"""
import itertools
import random
import re
import sys

sys.dont_write_bytecode = True

from batches import TOGETHER, Run, judge_all, number_behind, run_all, run_by_tclsh
from program import Wrong, check

NAMES = ("set", "incr", "expr", "if", "while", "for", "foreach", "lmap", "switch", "return", "break", "continue")
OTHERS = [name for name in NAMES if name not in ("foreach", "lmap")]  # words of a foreach or lmap that change its own name: PLACES_IN_WORDS
COMMAND = re.compile(r"(?<![\w$:@])(" + "|".join(NAMES) + r")(?=@)")
# What tclsh says beyond the message of a malformed expression.
FAULT_OF_TCLSH = re.compile(rb" at _@_|\nin expression \"[^\n]*\"(?:;\nshould be [^\n]*)?")
# It has a text of its own for an operand that is empty (docs/PROFILE.md).
EMPTY_OPERAND, NO_NUMBER = b"can't use empty string as operand", b"can't use non-numeric string as operand"
# What break and continue have come to, which by the manual is nothing. Where tclsh runs them in place it may be what came before.
NOTHING = (b"caught 3:", b"caught 4:")
BUDGET = 400
FAULTS = 0.02  # how often a number or a condition is none: the script mostly ends there


class Script:
    """A random script. A name of NAMES that stands for a command is written with @ behind it."""

    def __init__(self, seed):
        self.random = random.Random(seed)
        self.text = "".join(f"{line}\n" for line in self.lines())

    def lines(self):
        yield "catch {rename unknown {}}; set@ a 0; set@ b 3; set@ l {1 2 3}; set@ n 0"
        if self.random.random() < 0.5:
            yield f"proc p {{}} {{{self.body(1, True)}; return@ $a}}"
            yield "proc q {x args} {upvar 1 a y; set@ y $x; return -code [lindex {ok break continue error} [expr@ {$x % 4}]] r$x}"
        for _ in range(self.random.randint(3, 8)):
            yield self.command(0, False)
        yield "puts [list $a $b $n]"

    def pick(self, *choices):
        """One of some texts, or of functions that make one: those that aren't chosen make none, whose bodies would grow without end."""
        chosen = self.random.choice(choices)
        return chosen() if callable(chosen) else chosen

    def number(self):
        fault = self.random.random() < FAULTS
        return "x" if fault else self.pick("0", "1", "2", "3", "$a", "$b", "[incr@ n]", "[set@ a]", "007")

    def condition(self):
        left, right = self.number(), self.number()
        plain = f"{left} {self.pick('<', '>', '==', '!=', '<=', 'eq')} {right}"
        if self.random.random() < FAULTS:
            return self.pick("$a <", "[break@]", f"{left} || [puts o]")
        return self.pick(plain, plain, plain, f"!({plain})", f"{plain} && [incr@ n] < 9", "1", "0", "[llength $l] > 2")

    def braced(self, depth, inner):
        body = self.body(depth + 1, inner)
        return self.pick(f"{{{body}}}", f"{{{body}}}", f"{{{body}}}", f"[list {body}]" if re.fullmatch(r"[\w@ ]+", body) else "{}")

    def body(self, depth, inner):
        return "; ".join(self.command(depth, inner) for _ in range(self.random.randint(0, 4)))

    def elements(self):
        return self.pick("{1 2 3}", "{1 2 3 4 5}", "$l", "$l", "{}", "$n", "[list a b]", "[set@ l {4 5}]", "[incr@ n]", f"[{self.changed(OTHERS)}]", '"\\{ $a"')

    def lists(self, count):
        """Several lists with their names."""
        names = [count, self.pick("j", f"{{j {count}}}", "{j k}"), self.pick("b", "x(y)", "::g", "{a n}", "l", "{}")]
        self.random.shuffle(names)
        return " ".join(f"{name} {self.elements()}" for name in names[: self.pick(2, 2, 3)])

    def gathered(self, depth):
        """What the turns of an lmap result in, some of which may end it, or have no result."""
        count = f"i{depth}"
        last = self.pick(f"set@ a ${count}", f"expr@ {{{self.number()} + 1}}", f"list {self.number()} ${count}", "set@ b", "", f"if@ {{{self.condition()}}} {{list {{}} x}}")
        body = self.pick("", lambda: f"{self.body(depth + 1, True)}; ", f"if@ {{{self.condition()}}} {self.pick('break@', 'continue@')}; ") + last
        return self.pick(
            f"lmap@ {count} {self.pick('{1 2 3}', '$l', '{}', '[list a b]')} {{{body}}}",
            f"lmap@ {{{count} a}} {{1 2 3}} {{{body}}}",
            f"lmap@ {self.lists(count)} {{{body}}}",
        )

    def loop(self, depth):
        count, body = f"i{depth}", self.body(depth + 1, True)
        return self.pick(
            f"set@ {count} 0; while@ {{[incr@ {count}] < {self.random.randint(1, 4)}}} {{{body}}}",
            f"set@ {count} 0; while@ {{${count} < 3 && {self.condition()}}} {{incr@ {count}; {body}}}",
            f"for@ {{set@ {count} 0}} {{${count} < 3}} {{incr@ {count}; {self.pick('', 'break@', 'continue@', 'incr@ a')}}} {{{body}}}",
            f"foreach@ {count} {self.pick('{1 2 3}', '$l', '{}', '[list a b]')} {{{body}}}",
            f"foreach@ {{{count} a}} {{1 2 3}} {{{body}}}",
            f"foreach@ {self.lists(count)} {{{body}}}",
            f"foreach@ {self.lists(count)} {{puts $j/$a/$b; {body}}}",
            lambda: f"puts [{self.gathered(depth)}]",
            lambda: f"set@ l [{self.gathered(depth)}]",
            lambda: self.gathered(depth),
        )

    def choice(self, depth, inner):
        text = f"if@ {{{self.condition()}}} {self.pick('', 'then ')}{self.braced(depth, inner)}"
        for _ in range(self.pick(0, 0, 1, 2)):
            text += f" elseif {{{self.condition()}}} {self.braced(depth, inner)}"
        return text + self.pick("", lambda: f" else {self.braced(depth, inner)}", lambda: f" {self.braced(depth, inner)}")

    def arms(self, depth, inner):
        """A `switch` of a list, some of which is called the general way."""
        patterns = ["0", "1", "3", "$a", "{}", "12", "x"]
        self.random.shuffle(patterns)
        arms = " ".join(f"{pattern} {self.pick('-', lambda: '{' + self.body(depth + 1, inner) + '}')}" for pattern in patterns[: self.random.randint(1, 4)])
        last = f"{self.pick('default', '7')} {{{self.body(depth + 1, inner)}}}"
        return f"switch@ {self.pick('', '-- ', '-- ', '-exact -- ', '-glob -- ')}{self.number()} {{{arms} {last}}}"

    def changed(self, names=NAMES):
        """A name that is renamed, replaced or put back."""
        name = self.pick(*names)
        return self.pick(
            f"rename {name}@ old_{name}",
            f"rename {name}@ {{}}",
            f"rename old_{name} {name}@",
            f"catch {{rename {name}@ old_{name}}}; proc {name}@ args {{puts {name}/$args; return mine}}",
            f"catch {{rename {name}@ {{}}; rename old_{name} {name}@}}",
        )

    def command(self, depth, inner):
        simple = [
            lambda: f"set@ {self.pick('a', 'b')} {self.number()}",
            "set@ a",
            lambda: f"incr@ {self.pick('a', 'n', 'b')}",
            lambda: f"incr@ a {self.number()}",
            lambda: f"set@ a [expr@ {{{self.condition()}}}]",
            lambda: f"expr@ {{{self.number()} {self.pick('+', '-', '*')} {self.number()}}}",
            lambda: f"puts [set@ b {self.number()}]",
            "puts $a/$b/$n",
            lambda: f"catch {{{self.changed()}}}",
            lambda: f"puts [catch {{return@ {self.number()}}} r]$r",
            "catch {q [incr@ n]}",
        ]
        if inner:
            ends = lambda: f"if@ {{{self.condition()}}} {self.pick('break@', 'continue@')}"
            simple += [lambda: self.pick("break@", "continue@"), "q [incr@ n]", ends]
        if depth >= 4 or self.random.random() < 0.45:
            return self.pick(*simple)
        loop, choice, arms = lambda: self.loop(depth), lambda: self.choice(depth, inner), lambda: self.arms(depth, inner)
        return self.pick(
            *(loop, loop, choice, choice, arms, arms),
            lambda: f"puts \"caught [catch {{{self.body(depth + 1, inner)}}} r]:$r\"",
            lambda: f"eval {{{self.body(depth + 1, inner)}}}",
            "puts [catch p]",
        )


# ---- each name, changed in each place

# What a change of a name does as it is called the third time, and then.
CHANGES = [
    "{rename NAME@ kept}",
    "{rename NAME@ {}}",
    "{rename NAME@ kept; proc NAME@ args {puts {own NAME}; uplevel 1 [list kept {*}$args]}}",
    "{rename NAME@ kept} {rename kept NAME@}",
    "{rename NAME@ kept; proc NAME@ args {puts {own NAME}; format 1}} {} {rename NAME@ {}; rename kept NAME@}",
]
# Where it is called, in each of four turns twice; more answers 1 four times.
PLACES = [
    "while@ {[more]} {change; change; USES}",
    "while@ {[more]} {USES; change; change}",
    "while@ {[more] && [change; change]} {USES}",
    "for@ {set@ i 0} {[more]} {incr@ i} {change; change; USES}",
    "for@ {set@ i 0} {[more] && [change; change]} {incr@ i} {USES}",
    "for@ {set@ i 0} {[more]} {incr@ i; change; change; USES} {puts $i}",
    "foreach@ o {1 2 3 4} {for@ {change; change; set@ i 0} {$i < 2} {incr@ i} {USES}}",
    "foreach@ i {1 2 3 4} {change; change; USES}",
    "foreach@ {i j} {1 2 3 4 5} k {1 2 3 4} {change; change; USES}",
    "puts [lmap@ i {1 2 3 4} {change; change; USES; set@ i}]",
    "foreach@ i {1 2 3 4} {if@ {[change; change]} {USES} else {puts no}}",
    "foreach@ i {1 2 3 4} {if@ {0} {puts no} elseif {[change; change]} {USES}}",
    "foreach@ i {1 2 3 4} {if@ {$i} {change; change; USES}; USES}",
    "foreach@ i {1 2 3 4} {if@ [change; change] {USES}}",
    "foreach@ i {1 2 3 4} {switch@ -- $i {1 {change; change; USES} 2 {USES; change} default {change; change; USES}}}",
    "foreach@ i {1 2 3 4} {puts [expr@ {$i + [change; change]}]; USES}",
    "foreach@ i {1 2 3 4} {foreach@ x {1 2 3} {if@ {$x == 2} {change; change; continue@}; puts $x; change; break@}; USES}",
]
# Places in words of a command: by the manual its name is looked up when they are there, and tclsh has compiled it before.
PLACES_IN_WORDS = [
    "foreach@ o {1 2 3 4} {foreach@ i [change; change] {USES}}",
    "foreach@ o {1 2 3 4} {puts [lmap@ i [change; change] {USES; set@ i}]}",
    "foreach@ i {1 2 3 4} {set@ v [change; change]; USES}",
    "foreach@ i {1 2 3 4} {incr@ v [change; change]; USES}",
    "foreach@ i {1 2 3 4} {switch@ -- [change; change] {1 {USES}}}",
    "foreach@ i {1 2 3 4} {puts [catch {return@ [change; change]}]; USES}",
]
USES = (
    "set@ a $n; puts [expr@ {$a * 2}]; if@ {$n > 3} {puts big} else {puts small}; "
    "foreach@ x {1 2 3} {if@ {$x == 2} {continue@}; puts $x; incr@ n}; "
    "for@ {set@ k 0} {$k < 9} {incr@ k} {if@ {$k == 1} {break@}; puts k$k}; "
    "set@ k {}; while@ {$k eq {}} {append k .; incr@ n}; foreach@ x {1 2} y {a b} {puts $x$y}; "
    "puts [lmap@ x {1 2 3 4} {if@ {$x == 2} {continue@}; if@ {$x == 4} {break@}; set@ x m$x}]; set@ x 2; "
    "switch@ -- $x {1 {puts one} 2 {incr@ n} default {puts other}}; puts [catch {return@ $x} r]$r"
)
BEGIN = "catch {rename unknown {}}; proc more {} {string match {[1-4]} [llength [lappend ::passed x]]}; "


def changed(name, places):
    """Scripts in which a name is changed in each of the places, at the top and in a procedure."""
    for change in CHANGES:
        begin = f"{BEGIN}proc change {{}} {{eval [lindex {{{{}} {{}} {{}} {change.replace('NAME', name)}}} [llength [lappend ::turns x]]]; format 1}}\n"
        for place in places:
            text = f"set@ n 0; {place.replace('USES', USES)}; puts [list $n $k]"
            yield f"{name}: {change}: {place}: at the top", begin + text
            yield f"{name}: {change}: {place}: in a procedure", f"{begin}proc run {{}} {{{text}}}; run"


# ---- runs

def inlined(text):
    return text.replace("@", "")


def called(text):
    return COMMAND.sub(r"::\1", text).replace("@", "")


def forms(name, text, short):
    """A script as it is and with calls, and one of the two in slices, each with the same budget, which may be a short one."""
    rand = random.Random(f"runs of {name}")
    budget = rand.choice([BUDGET, rand.randint(0, 60)]) if short else BUDGET
    options = ["-budget", str(budget)]
    texts = [inlined(text), called(text)]
    sliced = Run(name, rand.choice(texts), [*options, "-slice", str(rand.randint(1, 5))])
    return [*(Run(name, text, options) for text in texts), sliced]


def without_colons(run):
    """How a run ended, by the names without their colons, which messages and procedures show."""
    status, *texts = run.end
    return status, *(text.replace(b"::", b"") for text in texts)


def compare(tested, room, scripts, short=True):
    """What is wrong: scripts whose forms end otherwise, or by none of the ends that a script can have."""
    found = [forms(name, text, short) for name, text in scripts]
    run_all(tested, room, [run for runs in found for run in runs])
    for runs in found:
        if runs[0].end[0] not in (0, 1, 2) or len({without_colons(run) for run in runs}) > 1:
            told = "".join(f"\n    {' '.join(run.options)}: {run.end}" for run in runs)
            yield f"{runs[0].name}, inlined, called, in slices:\n{runs[0].text}{told}"


def as_ours(text):
    return FAULT_OF_TCLSH.sub(b"", text).replace(EMPTY_OPERAND, NO_NUMBER)


def without_what_came_before(theirs, ours):
    """What tclsh has put out, without results of break and continue that ours haven't."""
    lines = itertools.zip_longest(theirs.split(b"\n"), ours.split(b"\n"), fillvalue=b"")
    return b"\n".join(our if our in NOTHING and line.startswith(our) else line for line, our in lines)


def compare_with_tclsh(tested, room, scripts):
    """The same for scripts that tclsh runs otherwise. One that spends its budget may have no end, and isn't compared."""
    runs = [Run(name, inlined(text), ["-budget", str(BUDGET)]) for name, text in scripts]
    run_all(tested, room, runs)
    yield from (f"{run.name}:\n{run.text}\n    tclint: {run.end}" for run in runs if run.end[0] not in (0, 1, 2))
    runs = [run for run in runs if run.end[0] in (0, 1)]
    for run, (status, out, message) in zip(runs, run_by_tclsh(room, runs, as_ours)):
        if run.end != (status, without_what_came_before(out, run.end[1]), message):
            yield f"{run.name}:\n{run.text}\n    tclint: {run.end}\n    tclsh: {status, out, message}"


def random_scripts(first, count):
    return [(f"seed {seed}", Script(seed).text) for seed in range(first, first + count)]


def all_changed(places):
    return [script for name in NAMES for script in changed(name, places)]


def list_checks():
    def listed(name, scripts, short):
        @check(f"inlined/{name}")
        def _(tested, room):
            wrong = list(compare(tested, room, scripts(), short))
            if wrong:
                raise Wrong("\n".join(wrong))

    for first in (0, TOGETHER):
        listed(first, lambda first=first: random_scripts(first, TOGETHER), True)
    for name in NAMES:
        listed(f"{name}-changed", lambda name=name: changed(name, PLACES + PLACES_IN_WORDS), False)


list_checks()


def main(words):
    seed, by_tclsh = number_behind(words, "--seed", 0), "--tclsh" in words
    all_scripts = all_changed(PLACES if by_tclsh else PLACES + PLACES_IN_WORDS) if "--names" in words else None
    count = len(all_scripts) if all_scripts else number_behind(words, "--count", 2 * TOGETHER)

    def scripts_from(first, size):
        return all_scripts[first : first + size] if all_scripts else random_scripts(seed + first, size)

    passed, failed = judge_all(count, scripts_from, compare_with_tclsh if by_tclsh else compare)
    print(f"{passed} passed, {failed} failed")
    return 1 if failed else 0


if __name__ == "__main__":
    sys.exit(main(sys.argv[1:]))
