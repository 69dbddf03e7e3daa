#!/usr/bin/env python3
"""Kept forms of values against plain texts, on random scripts of nested values that are shared, changed and read in aliases.

    tests/values.py                          the checks that tests/run runs with all others
    tests/values.py --count N [--seed S]     N scripts, from seed S on
    tests/values.py --tclsh ..               either of these, compared with tclsh too

A value is its text, but numbers, short texts, lists, dictionaries, texts that grow and readings of literals are kept beside it or in
its place, shared, and changed in place. No script may see which. So each script is run as it is, and once more with each value that it
stores or passes made anew as a plain text, so that no form goes from one command to the next: both must put out the same.

A fourth of the scripts use what tclsh says otherwise by docs/PROFILE.md, and some of these run with -tcl9. By tclsh the others are run.
"""
import itertools
import os
import re
import sys

sys.dont_write_bytecode = True

from batches import TOGETHER, Run, judge_all, number_behind, run_all, run_by_tclsh
from program import Wrong, check, shown
from value_scripts import Script

# What tclsh says in other words, and what it says beyond ours. Of the texts in some messages it shows a beginning.
AS_OURS = (
    (re.compile(rb"<(?:\d+: )?1:(expected (?:integer|boolean value) but got|list element in \w+ followed by)[^>]*>"), rb"<1:\1>"),
    (re.compile(rb"<(?:\d+: )?1:dict( element in \w+ followed by)[^>]*>"), rb"<1:list\1>"),
    (re.compile(rb"(unmatched open \w+ in )dict"), rb"\1list"),
    (re.compile(rb"no such element in array"), rb"no such variable"),  # a compiled `array set` makes the array before its words are there
    (re.compile(rb" \(looks like invalid octal number\)"), b""),
    (re.compile(rb"can't use (?:empty string|invalid octal number) as operand"), b"can't use non-numeric string as operand"),
)
# In an element as tclsh writes it, and we don't: a quote or a bracket behind a backslash, two backslashes before a newline, a brace behind a
# character that is none.
QUOTED_OTHERWISE = re.compile(rb'\\"|\\\]|\\\\$|[^\s{}\\"(<:]\{')
PAST_64_BITS = re.compile(rb"integer overflow|integer value too large to represent")


def first_difference(*outputs):
    """The first line in which outputs differ, of each of them, with its number."""
    for number, lines in enumerate(itertools.zip_longest(*(out.split(b"\n") for out in outputs), fillvalue=b"(no line)"), 1):
        if len(set(lines)) > 1:
            return number, lines
    return None


def told(run, names, ends):
    """What is wrong with a script that ends otherwise: the ends, and the lines from where they differ on."""
    found = [f"{run.name} {' '.join(run.options)}\n{run.text}"]
    where = first_difference(*(out for _, out, _ in ends))
    for at, (name, (status, _, message)) in enumerate(zip(names, ends)):
        found.append(f"    {name}: status {status}, {shown(message)}")
        if where:
            number, lines = where
            same = len(os.path.commonprefix(lines))
            found.append(f"        line {number} of the output, from character {same}: {shown(lines[at][max(0, same - 40) :])}")
    return "\n".join(found)


def as_ours(text):
    for pattern, words in AS_OURS:
        text = pattern.sub(words, text)
    return text


class Judge:
    """Tells what is wrong with scripts, and counts those that tclsh has run."""

    def __init__(self, by_tclsh=False):
        self.by_tclsh, self.asked, self.otherwise = by_tclsh, 0, 0

    def wrong(self, tested, room, scripts):
        kept = [Run(script.name, script.as_it_is(), script.options) for script in scripts]
        plain = [Run(script.name, script.plain(), script.options) for script in scripts]
        run_all(tested, room, kept + plain)
        for run, other in zip(kept, plain):
            if run.end != other.end or run.end[0] != 0:
                yield told(run, ("as it is", "plain texts"), (run.end, other.end))
        if self.by_tclsh:
            yield from self.wrong_by_tclsh(tested, room, [(run, script) for run, script in zip(kept, scripts) if not script.own])

    def wrong_by_tclsh(self, tested, room, pairs):
        self.asked += len(pairs)
        all_theirs = run_by_tclsh(room, [run for run, _ in pairs], as_ours)
        for (run, script), theirs in zip(pairs, all_theirs):
            status, out, message = run.end
            ours = status, as_ours(out), message
            if ours == theirs:
                continue
            if self.is_known(tested, room, script):
                self.otherwise += 1
            else:
                yield told(run, ("tclint", "tclsh"), (ours, theirs))

    def is_known(self, tested, room, script):
        """Has the first value that differs an element that tclsh writes otherwise, or is it a number past 64 bits?"""
        run = Run(script.name, script.traced(), script.options)
        run_all(tested, room, [run])
        [(_, theirs, _)] = run_by_tclsh(room, [run], as_ours)
        where = first_difference(as_ours(run.end[1]), theirs)
        return where and (PAST_64_BITS.search(where[1][0]) or QUOTED_OTHERWISE.search(where[1][1]))


def random_scripts(first, count):
    return [Script(seed) for seed in range(first, first + count)]


def list_checks():
    def listed(first):
        @check(f"values/seeds-from-{first}")
        def _(tested, room):
            wrong = list(Judge().wrong(tested, room, random_scripts(first, TOGETHER)))
            if wrong:
                raise Wrong("\n".join(wrong))

    for first in (0, TOGETHER):
        listed(first)


list_checks()


def main(words):
    seed, judge = number_behind(words, "--seed", 0), Judge("--tclsh" in words)
    count = number_behind(words, "--count", 2 * TOGETHER)
    passed, failed = judge_all(count, lambda first, size: random_scripts(seed + first, size), judge.wrong)
    if judge.by_tclsh:
        print(f"tclsh has run {judge.asked}, and {judge.otherwise} of them otherwise as docs/PROFILE.md says")
    print(f"{passed} passed, {failed} failed")
    return 1 if failed else 0


if __name__ == "__main__":
    sys.exit(main(sys.argv[1:]))
