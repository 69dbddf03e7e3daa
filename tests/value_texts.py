"""Random texts of every kind that a value may be, and how a script writes them: as a word, as an operand, as an element of a list."""
import random
import re

# Without letters of floats, which the profile leaves out: no e, i, n, and no dot.
LETTERS = "abcdgkmpqrsuvwxz"
PAST_ASCII = "éüß€λ"
FAR_PAST = "😀"  # counts as one character, and as two by tclsh
NUMBERS = (
    *("0", "1", "-1", "2", "3", "7", "12", "255", "65536", "4294967296", "-2147483649", "9007199254740993"),
    *("007", "-010", "+5", "-0", "00", "08", "0x1F", "-0Xff", "0b101", "0o17", " 12", "12 ", "\t3\n", " 0x10 ", "- 1", "1 2", "true", "off"),
)
LARGE = ("9223372036854770000", "-9223372036854770000", "0x7fffffffffff0000")  # a sum with a small number has 64 bits too
LIMITS = ("9223372036854775807", "-9223372036854775808", "0x7fffffffffffffff", "9223372036854775808", "-9223372036854775809", "1" * 30)
SPECIAL = (
    *("a b", " a", "a ", "a  b", " ", "\n", "a\nb", "\ta", "{", "}", "{a", "a}", "a{b", "}{", "{a b} c", "a {b c} d", "{a} {b}", "{a}b c"),
    *("\\", "a\\", "\\\\", "\\{", "a\\ b", "\\\n", "a \\\nb", "\\x41", "$a", "${a b", "a;b", ";", "#", "#a", "# a", "[a", "{}", "{{}}"),
)
# Of these tclsh writes some otherwise where they are elements of a list (docs/PROFILE.md).
WRITTEN_OTHERWISE = ("a\"b", "\"", "\"a b", "\"a\"", "a]b", "[a b]", "[a]", "a{b}", "x{a b}", "{a}b", "[set a]", "a\\\\\nb")
# Round the bounds of forms: short texts, texts with room for readings, elements that are read with their list, texts with marks.
LENGTHS = (6, 7, 8, 9, 30, 31, 32, 33, 63, 64, 65, 127, 128, 254, 255, 256, 257, 300)
COUNTS = (14, 15, 16, 17, 18, 20, 32, 40)
KEYS = ("k", "k", "k", "q", "q", "a b", "1", "01", "", "é", "#", "longer key", "{")


def is_balanced(text):
    """May the text stand in braces, which leave it as it is?"""
    if re.search(r"\\\n|(?<!\\)(\\\\)*\\\Z", text):
        return False
    depth = 0
    for brace in re.findall(r"[{}]", re.sub(r"\\.", "", text, flags=re.DOTALL)):
        depth += 1 if brace == "{" else -1
        if depth < 0:
            return False
    return depth == 0


def with_backslashes(text, special):
    return re.sub(f"[{re.escape(special)}]", lambda found: "\\" + {"\n": "n", "\t": "t"}.get(found[0], found[0]), text)


def in_quotes(text):
    return '"' + with_backslashes(text, '\\{}[]$"') + '"'


def bare(text):
    return with_backslashes(text, '\\{}[]$"; \t\n#') if text else "{}"


def braced(text):
    return f"{{{text}}}" if is_balanced(text) else in_quotes(text)


class Texts:
    """Random texts. Where they aren't `own`, they are texts of which tclsh says what tclint says."""

    def __init__(self, rand, own):
        self.random, self.own = rand, own

    def word(self, text):
        """A text as a word of a command."""
        return self.random.choice((braced, braced, in_quotes, bare))(text)

    def operand(self, text):
        """A text as an operand of an expression."""
        return text if re.fullmatch(r"0|-?[1-9][0-9]{0,17}", text) else self.random.choice((braced, in_quotes))(text)

    def letters(self, count):
        letters = LETTERS
        if self.random.random() < 0.3:
            letters += PAST_ASCII + (FAR_PAST if self.own else "")
        return "".join(self.random.choices(letters, k=count))

    def number(self):
        kind = self.random.random()
        if kind < 0.4:
            return str(self.random.randint(-20, 20))
        if kind < 0.95:
            return self.random.choice(NUMBERS)
        return self.random.choice(LIMITS if self.own else LARGE)

    def simple(self):
        kind = self.random.random()
        if kind < 0.08:
            return ""
        if kind < 0.3:
            return self.number()
        if kind < 0.7:
            return self.letters(self.random.randint(1, 12))
        if kind < 0.74:
            return self.sized(self.letters(1), self.random.choice(LENGTHS))
        if kind < 0.78:
            return self.sized(self.letters(3) + " ", self.random.choice(LENGTHS))
        return self.random.choice(SPECIAL + WRITTEN_OTHERWISE if self.own else SPECIAL)

    def sized(self, pattern, count):
        """A pattern again and again, which another letter ends."""
        return (pattern * count)[: count - 1] + self.letters(1)

    def key(self):
        return self.random.choice(KEYS) if self.random.random() < 0.85 else self.simple()

    def huge(self):
        kind = self.random.randint(0, 3)
        if kind == 0:
            return self.sized(self.letters(self.random.randint(1, 9)), self.random.randint(1000, 5000))
        if kind == 1:
            return " ".join(self.letters(3) for _ in range(self.random.randint(200, 900)))
        if kind == 2:
            return " ".join(f"{self.letters(1)}{at % 150} {at}" for at in range(200))
        return self.list_of([self.list_of([self.simple(), self.number()]) for _ in range(80)])

    def list_of(self, elements):
        """A list of elements as people write them: most as list(n) does, some with other spaces and in other quotes."""
        other = "\n" if self.own else "  "  # behind a backslash tclsh writes a newline otherwise
        between = self.random.choice((" ", " ", " ", " ", "  ", other, " \t"))
        around = self.random.choice(("", "", "", "", " ", other))
        return around + between.join(self.element(text) for text in elements) + around

    def element(self, text):
        if re.fullmatch(r"\w+", text) and self.random.random() < 0.9:
            return text
        if is_balanced(text) and self.random.random() < 0.7:
            return braced(text)
        return in_quotes(text) if self.own and self.random.random() < 0.5 else bare(text)

    def list(self, depth=0):
        many = self.random.random() < 0.12 and depth == 0
        count = self.random.choice(COUNTS) if many else self.random.randint(0, 4)
        return self.list_of([self.any(depth + 1) for _ in range(count)])

    def dictionary(self, depth=0):
        many = self.random.random() < 0.12 and depth == 0
        count = self.random.choice(COUNTS) // 2 if many else self.random.randint(0, 3)
        keys = [f"{self.letters(1)}{at}" if many else self.key() for at in range(count)]
        flat = [text for key in keys for text in (key, self.any(depth + 1))]
        return self.list_of(flat + ([self.key()] if self.random.random() < 0.03 else []))

    def nested(self):
        """A list in lists, some deeper than lists are kept."""
        depth = self.random.choice((3, 62, 63, 64, 65, 70))
        return "{" * depth + self.random.choice(("a b", "k {a b}", "")) + "}" * depth

    def any(self, depth=0):
        kind = self.random.random()
        if depth == 0 and kind < 0.03:
            return self.random.choice((self.huge, self.nested))()
        if depth > 2 or kind < 0.6:
            return self.simple()
        return self.list(depth) if kind < 0.8 else self.dictionary(depth)
