"""Random scripts of values that are built, shared, changed and read in aliases. In one that is made, « » stand round each value that is
stored or passed, and ‹name› behind each command that has changed a variable."""
import functools
import random
import re

from value_templates import CHANGES, OWN_CHANGES, OWN_READS, READS, SHARES, VALUES
from value_texts import Texts

NAMES = {"list": ["l", "m", "v(l)", "w"], "dict": ["d", "f", "v(q)"], "text": ["s", "v(é)"], "number": ["n", "v(1)"]}
IN_PROCEDURE = {"list": ["x", "y", "x"], "dict": ["x", "d", "y"], "text": ["x", "s"], "number": ["y", "x"]}
KINDS = {"l": "list", "d": "dict", "s": "text", "n": "number"}
INDICES = ("0", "0", "1", "1", "2", "3", "end", "end", "end-1", "end-2", "-1", "5", "9", "15", "16", "17", "100", "254", "1000")
PATTERNS = ("*", "a*", "*b", "?", "??", "k", "*1*", "é*", "{* *}")
SEPARATORS = ("{ }", "{}", "a", ",", "é", "{k\n}")
OWN = 0.25  # how many scripts are
ALONE = "if {[catch "  # what a command begins with whose result is let go
PLACE = re.compile(r"([@%])(v\(l\)|\w+|%)")

# A text may be run as a command, so those of tclsh go that may be one of its letters.
BEGIN = """\
foreach name {unknown cd pwd} {catch {rename $name {}}}
proc say text {
    if {[string length $text] > 1500} {
        set text "[string length $text]: [string range $text 0 99] .. [string range $text 700 799] .. [string range $text end-99 end]"
    }
    puts <$text>
}
proc bound name {upvar 1 $name x; if {[info exists x] && [string length $x] > 20000} {set x «{}»}}
proc nest {x n} {for {set i 0} {$i < $n} {incr i} {set x «[list «$x»]»}; return $x}
proc tower {x n} {for {set i 0} {$i < $n} {incr i} {set x «[dict create k «$x»]»}; return $x}
proc total x {set n 0; foreach y «$x» {incr n [string length «$y»]}; return $n}
proc pairs d {set s {}; dict for {k x} «$d» {append s «$k» = «$x» ,}; return $s}
proc rest {x args} {return $args}
proc grow {name x} {upvar 1 $name l; lappend l «$x»‹l›; llength «$l»}
proc put {name k x} {upvar 1 $name d; dict set d «$k» «$x»‹d›; return}
"""
# A value as plain as it can be: of a key of a dictionary the text alone is kept, in place where it is short (Key of tcl_values), and lassign gives a
# variable the text of such an element. A long text would keep what it is read as after string range, join and split, and after append it would grow in place.
PLAIN_BEGIN = """\
proc plain text {lassign [dict keys [dict create $text {}]] text; return $text}
proc renew name {
    upvar 1 $name x
    if {[array exists x]} {
        foreach index [lsort [array names x]] {set x($index) [plain $x($index)]}
    } elseif {[info exists x]} {
        set x [plain $x]
    }
}
"""


@functools.cache
def without(among, pattern):
    """The templates in which a pattern isn't found."""
    return [template for template in among if not re.search(pattern, template)]


def reference(name):
    return f"«${name}»"


class Script:
    """A random script. One that is `own` uses what the profile says otherwise than tclsh, too."""

    def __init__(self, seed):
        self.name, self.random = f"seed {seed}", random.Random(f"values {seed}")
        self.own = self.random.random() < OWN
        self.options = ["-tcl9"] if self.own and self.random.random() < 0.3 else []
        self.texts = Texts(self.random, self.own)
        self.names, self.changed, self.last = NAMES, [], None
        self.text = "".join(f"{line}\n" for line in self.lines())

    def as_it_is(self):
        return re.sub("[«»]|‹.*?›", "", self.text)

    def plain(self):
        """The same with plain texts: no form of a value goes from one command to the next."""
        text = self.text.replace("«", "[plain ").replace("»", "]")
        return PLAIN_BEGIN + re.sub("‹(.*?)›", r"; renew \1", text)

    def traced(self):
        """The same, which puts out each value that is made anew, and cuts nothing."""
        return self.plain().replace("proc plain text {", "proc plain text {puts $text; ", 1).replace("> 1500}", "> 1500000}", 1)

    # ---- the script

    def lines(self):
        yield BEGIN
        self.names = IN_PROCEDURE
        shared = self.pick("", "", "global d; ", "global d s v; ")
        yield f"proc change {{x {{y {self.texts.element(self.texts.any())}}}}} {{{shared}{self.body()}; return «$x»}}"
        yield f"proc alias {{name y}} {{upvar 1 $name x; {shared}{self.body()}; return}}"
        self.names = NAMES
        lines = list(self.main())
        yield from ["proc main {} {", *lines, "}", "main"] if self.random.random() < 0.5 else lines

    def main(self):
        for kind, names in NAMES.items():
            letter = "s" if kind == "text" else kind[0]
            yield from (f"set {name} {self.literal(letter)}" for name in names if name != "w")
        yield "upvar 0 l w"
        for _ in range(self.random.randint(1, 3)):
            yield from (self.line(SHARES) for _ in range(self.random.randint(1, 4)))
            yield from (self.line(CHANGES) for _ in range(self.random.randint(1, 5)))
            yield from (self.shown(self.reading()) for _ in range(self.random.randint(2, 6)))
            yield "foreach name {l m d f s n v(l) v(q) v(é) v(1)} {bound $name}"
        for name in sum(NAMES.values(), []):
            yield from (self.shown(self.reading(name)) for _ in range(self.random.randint(0, 2)))
            yield self.shown(f"set {name}")

    def line(self, among):
        """A line of commands that change variables, mostly one. What the last one answers is shown, or let go."""
        command = self.command(among)
        while self.random.random() < 0.25:
            command = f"{self.alone(command)}; {self.command(among)}"
        return self.shown(command + ("; list" if ALONE in command or self.random.random() < 0.5 else ""))

    def shown(self, command):
        return f'say "[catch {{{command}}} r]:$r"{self.marks()}'

    def alone(self, command):
        """A command whose result is let go. An error is shown, and what stands behind it runs."""
        return f"{ALONE}{{{command}; list}} r]}} {{say 1:$r}}{self.marks()}"

    def command(self, among, but="^$"):
        """A command that changes variables, or now and then one that reads what was changed last."""
        if self.random.random() < 0.2:
            return self.reading(self.variable("any"))
        if among is CHANGES and self.own and self.random.random() < 0.15:
            among = OWN_CHANGES
        return self.filled(self.chosen(among, but))

    def reading(self, name=None):
        template = self.random.choice(OWN_READS if self.own and self.random.random() < 0.15 else READS)
        return self.filled(re.sub("%[vo]", reference(name), template, count=1) if name else template)

    def body(self):
        """Commands that change variables, without bodies of their own."""
        return "; ".join(self.alone(self.command(CHANGES, "%b|%w|alias")) for _ in range(self.random.randint(1, 3)))

    def marks(self):
        """Marks of the variables that have been changed since the last ones."""
        names, self.changed = dict.fromkeys(self.changed), []
        return "".join(f"‹{name}›" for name in names)

    def chosen(self, among, but="^$"):
        """A template, but for some. A procedure calls none that may call it."""
        return self.random.choice(without(among, f"{but}|change" if self.names is IN_PROCEDURE else but))

    # ---- what stands in templates

    def pick(self, *choices):
        return self.random.choice(choices)

    def filled(self, template, depth=0):
        return PLACE.sub(lambda found: self.target(found[2]) if found[1] == "@" else self.place(found[2], depth), template)

    def target(self, kind):
        """The name of a variable that is changed."""
        if kind == "same":
            return self.last
        if kind == "base":
            name = self.random.choice([name for names in self.names.values() for name in names if name != "w"])
        elif kind in (*self.names, "any"):
            name = self.variable(kind)
        else:
            name = kind
        self.last = name
        self.changed.append(name)
        return name

    def variable(self, kind):
        """The name of one: often the one that was changed last, which so gets from one form to the next."""
        if self.last in sum(self.names.values(), []) and self.random.random() < 0.3:
            return self.last
        if kind == "any" or self.random.random() < 0.1:
            kind = self.random.choice(list(self.names))
        return self.random.choice(self.names[kind])

    def place(self, kind, depth):
        if kind in "ldsnv":
            return self.word(kind, depth)
        if kind == "w":
            return f"{self.inner_body()}; if {{[incr turns] % 3 == 0}} break"
        return {
            "%": lambda: "%",
            "q": lambda: self.substituted(self.pick(*"ldsnv"), depth, '^"'),
            "o": lambda: self.operand("v", depth),
            "m": lambda: self.operand("n", depth),
            "i": lambda: self.random.choice(INDICES),
            "k": lambda: self.key(),
            "p": lambda: self.random.choice(PATTERNS),
            "t": lambda: self.random.choice(SEPARATORS),
            "c": lambda: str(self.random.randint(0, 3)),
            "h": lambda: str(self.pick(1, 2, 3, 5, 5, 62, 63, 64, 70)) if self.random.random() < 0.3 else "2",
            "b": self.inner_body,
        }[kind]()

    def inner_body(self):
        before, self.changed = self.changed, []
        body = self.body()
        self.changed = before + self.changed
        return body

    def key(self):
        if self.random.random() < 0.15:
            return self.word("v", 2)
        return f"«{self.texts.word(self.texts.key())}»"

    def word(self, kind, depth=0):
        """A word of a command."""
        kind = self.pick(*"ldsnv") if self.random.random() < 0.1 else kind
        if self.random.random() < 0.35:
            return self.literal(kind)
        return self.substituted(kind, depth)

    def literal(self, kind):
        return f"«{self.texts.word(self.literal_text(kind))}»"

    def literal_text(self, kind):
        of_kind = {"l": self.texts.list, "d": self.texts.dictionary, "s": self.texts.simple, "n": self.texts.number, "v": self.texts.any}
        return of_kind[kind]()

    def operand(self, kind, depth):
        if self.random.random() < 0.25:
            return f"«{self.texts.operand(self.literal_text(kind))}»"
        return self.substituted(kind, depth)

    def substituted(self, kind, depth, but="^$"):
        """A variable, or what a template makes, both of which may stand in an expression."""
        if self.random.random() < (0.35, 0.2, 0)[min(depth, 2)]:
            return f"«{self.filled(self.chosen(VALUES[kind], but), depth + 1)}»"
        return reference(self.variable(KINDS.get(kind, "any")))
