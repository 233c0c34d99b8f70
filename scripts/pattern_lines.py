"""Lines made of the pieces of a pattern: `lines_of` gives them as heads, units that are repeated, and tails.

A pattern of the dialect of .sublime-syntax files is read into a tree, and texts are made that its parts may match. Back
references, lookarounds' refusals and anchors are passed over, so a text need not match: near misses are wanted as well.
"""


class NoPattern(Exception):
    pass


# Sets of characters are sets of ASCII's, with one letter beyond it.
ALL = frozenset(map(chr, range(1, 127))) | {"\u00e9"}
DIGITS, HEXES = frozenset("0123456789"), frozenset("0123456789abcdefABCDEF")
WORD = frozenset(c for c in ALL if c.isalnum() or c == "_")
SPACES = frozenset("\t\n\x0b\x0c\r ")
SHORT = {"w": WORD, "d": DIGITS, "s": SPACES, "h": HEXES}
SHORT.update({name.upper(): ALL - chars for name, chars in list(SHORT.items())})
LETTERS = frozenset(c for c in ALL if c.isalpha())
UPPER, LOWER = frozenset(c for c in ALL if c.isupper()), frozenset(c for c in ALL if c.islower())
CONTROL, MARKS = frozenset(map(chr, range(1, 32))), frozenset("!\"#%&'()*,-./:;?@[]\\_{}")
NAMED = {
    **{"alpha": LETTERS, "alnum": LETTERS | DIGITS, "lower": LOWER, "upper": UPPER, "digit": DIGITS, "space": SPACES},
    **{"word": WORD, "xdigit": HEXES, "blank": frozenset(" \t"), "cntrl": CONTROL, "ascii": ALL - {"\u00e9"}},
    **{"punct": MARKS, "graph": ALL - SPACES, "print": ALL - CONTROL, "l": LETTERS, "lu": UPPER, "ll": LOWER},
    **{"n": DIGITS, "nd": DIGITS, "p": MARKS, "s": frozenset("$+<=>^`|~")},
}
CONTROLS = {"n": "\n", "t": "\t", "r": "\r", "f": "\f", "v": "\v", "a": "\a", "e": "\x1b"}
FAVOURED = "a1 _xA.-\"'/:;,=<>()[]{}*#&%$@!`|\\~^?+0\t"


class Pattern:
    """Reads a pattern's text into a tree of tuples; what it can't tell apart for a text is left out."""

    def __init__(self, text):
        self.text, self.at = text, 0
        self.tree = self.branches(False)
        if self.at < len(text):
            raise NoPattern(text)

    def peek(self, length=1):
        return self.text[self.at : self.at + length]

    def take(self, length=1):
        found = self.peek(length)
        if len(found) < length:
            raise NoPattern(self.text)
        self.at += length
        return found

    def until(self, end):
        stop = self.text.find(end, self.at)
        if stop < 0:
            raise NoPattern(self.text)
        found = self.text[self.at : stop]
        self.at = stop + len(end)
        return found

    def branches(self, free):
        rows = []
        while True:
            row, free = self.row(free)
            rows.append(row)
            if self.peek() != "|":
                return rows[0] if len(rows) == 1 else ("any", rows)
            self.at += 1

    def row(self, free):
        parts = []
        while self.peek() not in ("", "|", ")"):
            if free and self.peek().isspace():
                self.at += 1
            elif free and self.peek() == "#":
                end = self.text.find("\n", self.at)
                self.at = len(self.text) if end < 0 else end + 1
            elif self.peek(3) == "(?#":
                self.until(")")
            else:
                part, free = self.atom(free)
                parts.append(self.counted(part, free))
        return ("row", parts), free

    def counted(self, part, free):
        while True:
            while free and self.peek().isspace():
                self.at += 1
            sign = self.peek()
            if sign and sign in "*+?":
                self.at += 1
                least, most = {"*": (0, None), "+": (1, None), "?": (0, 1)}[sign]
            elif sign == "{" and self.bounds():
                least, most = self.bounds()
                self.until("}")
            else:
                return part
            if self.peek() in ("?", "+"):
                self.at += 1
            part = ("loop", part, least, most)

    def bounds(self):
        end = self.text.find("}", self.at)
        inner = self.text[self.at + 1 : end].split(",") if end > 0 else []
        if not inner or len(inner) > 2 or not all(x.isdigit() or not x for x in inner) or not any(inner):
            return None
        numbers = [int(x) if x else None for x in inner]
        return (numbers[0] or 0, numbers[-1])

    def atom(self, free):
        c = self.take()
        if c == "(":
            return self.group(free)
        if c == "[":
            return ("set", self.chars()), free
        if c == ".":
            return ("set", ALL - {"\n"}), free
        if c in "^$":
            return ("edge",), free
        if c == "\\":
            return self.escape(), free
        return ("set", frozenset(c)), free

    def group(self, free):
        inner = free
        kind = "row"
        if self.peek() == "?":
            self.at += 1
            if self.peek(2) in ("<=", "<!"):
                kind = "look" if self.take(2) == "<=" else "never"
            elif self.peek() in ("=", "!"):
                kind = "look" if self.take() == "=" else "never"
            elif self.peek() in (":", ">", "~"):
                self.at += 1
            elif self.peek() in ("<", "P", "'"):
                self.until("'" if self.take() == "'" else ">")
            else:
                on = True
                while self.peek() not in (":", ")"):
                    flag = self.take()
                    on = on and flag != "-"
                    inner = on if flag == "x" else inner
                if self.take() == ")":
                    return ("edge",), inner
        tree = self.branches(inner)
        if self.take() != ")":
            raise NoPattern(self.text)
        return (("row", [tree]) if kind == "row" else (kind, tree)), free

    def number(self):
        if self.peek() == "{":
            self.at += 1
            return chr(int(self.until("}"), 16))
        end = self.at
        while end < len(self.text) and end < self.at + 2 and self.text[end] in HEXES:
            end += 1
        return chr(int(self.take(end - self.at) or "0", 16))

    def escape(self):
        c = self.take()
        if c in SHORT:
            return ("set", SHORT[c])
        if c in "AzZbBGK":
            return ("edge",)
        if c in "pP":
            return ("set", self.property(c == "P"))
        if c in "kg" and self.peek() in ("<", "'"):
            self.until(">" if self.take() == "<" else "'")
            return ("set", frozenset("E"))
        if c in "123456789":
            while self.peek().isdigit():
                self.at += 1
            return ("set", frozenset("E"))
        if c == "R":
            return ("set", frozenset("\n"))
        return ("set", frozenset(self.plain(c)))

    def plain(self, c):
        if c == "x":
            return self.number()
        if c == "u":
            return chr(int(self.take(4), 16))
        if c == "0":
            return "\0"
        return CONTROLS.get(c, c)

    def property(self, negated):
        if self.peek() != "{":
            return WORD
        name = self.take() and self.until("}").lower()
        negated, name = negated ^ name.startswith("^"), name.lstrip("^")
        found = NAMED.get(name, LETTERS)
        return ALL - found if negated else found

    def chars(self):
        negated = self.peek() == "^"
        self.at += negated
        found, whole, first = set(), None, True
        while self.peek() != "]" or first:
            first = False
            if self.peek(2) == "&&":
                self.at += 2
                whole, found = (found if whole is None else whole & found), set()
                continue
            found |= self.member()
        self.at += 1
        found = found if whole is None else whole & found
        return frozenset(ALL - found if negated else found)

    def member(self):
        if self.peek(2) == "[:" and self.text.find(":]", self.at) > 0:
            self.at += 2
            name = self.until(":]")
            found = NAMED.get(name.lstrip("^"), LETTERS)
            return ALL - found if name.startswith("^") else found
        c = self.take()
        if c == "[":
            return self.chars()
        if c == "\\":
            c = self.take()
            if c in SHORT:
                return SHORT[c]
            if c in "pP":
                return self.property(c == "P")
            c = "\b" if c == "b" else self.plain(c)
        if self.peek() == "-" and self.peek(2)[1:] not in ("]", ""):
            after = self.text[self.at + 1]
            if after != "[" and not (after == "\\" and self.text[self.at + 2 : self.at + 3] in SHORT):
                self.at += 1
                last = self.take()
                last = self.plain(self.take()) if last == "\\" else last
                return {x for x in ALL if c <= x <= last} | {c, last}
        return {c}


def one_of(chars, pick):
    """A character of a set: the most usual one, or any where there is a pick."""
    chars = chars - {"\n"}
    if pick and len(chars) > 1:
        return pick.choice(sorted(chars - frozenset(map(chr, range(1, 9)))) or sorted(chars))
    return next((c for c in FAVOURED if c in chars), min(chars, default=""))


def sample(tree, more=0, pick=None):
    """A text that a tree may match; loops have so many turns more than they need."""
    kind = tree[0]
    if kind == "set":
        return one_of(tree[1], pick)
    if kind == "row":
        return "".join(sample(part, more, pick) for part in tree[1])
    if kind == "any":
        branch = pick.choice(tree[1]) if pick else max(tree[1][:3], key=lambda b: b != ("row", []))
        return sample(branch, more, pick)
    if kind == "loop":
        turns = min(tree[2] + more, tree[3] if tree[3] is not None else tree[2] + more, 40)
        return "".join(sample(tree[1], more, pick) for _ in range(turns))[:400]
    return ""


def walk(tree, before, pick):
    """Yields of a tree's parts ("part", text), and of its loops ("loop", text before it, text of a turn)."""
    kind = tree[0]
    if kind == "row":
        literal = ""
        for part in tree[1]:
            yield from walk(part, before, pick)
            text = sample(part)
            before = (before + text)[-200:]
            if part[0] == "set" and len(part[1]) == 1:
                literal += text
            else:
                if literal:
                    yield "part", literal
                literal = ""
        if literal:
            yield "part", literal
    elif kind == "any":
        for branch in tree[1] if len(tree[1]) <= 4 else pick.sample(tree[1], 4):
            yield "part", sample(branch, 1)
            yield from walk(branch, before, pick)
    elif kind == "loop":
        if tree[3] is None or tree[3] > 3:
            yield "loop", before, sample(tree[1], 1)
            yield "loop", before, sample(tree[1], 1, pick)
        yield from walk(tree[1], before, pick)
    elif kind in ("look", "never"):
        yield "part", sample(tree[1], 1)
        yield from walk(tree[1], before, pick)


def lines_of(pattern, pick):
    """The lines of a pattern, as heads, units and tails; the more telling ones first."""
    try:
        tree = Pattern(pattern).tree
    except (NoPattern, ValueError, RecursionError):
        tree = ("row", [("set", frozenset(c)) for c in pattern[:40] if c.isalnum()])
    found = list(walk(tree, "", pick))
    loops = list(dict.fromkeys(x[1:] for x in found if x[0] == "loop" and x[2]))
    parts = list(dict.fromkeys(x[1] for x in found if x[0] == "part" and x[1]))
    wholes = [sample(tree), sample(tree, 1), sample(tree, 2, pick)]
    few, many = [], []
    for before, turn in loops:
        many += [(before, turn, "\x01"), ("", before + turn * 2, ""), (before, turn + " ", ""), ("", turn + (before or "("), "")]
    for whole in wholes:
        few += [("", whole, ""), ("", whole + " ", ""), ("", whole[:-1], "\x01")]
    turns = list(dict.fromkeys(turn for _, turn in loops))
    pieces = parts + turns + ["a", " ", '"', "("]
    pairs = [("", a + b, "") for a in pieces for b in pieces if a != b]
    few += [("", part, "") for part in pick.sample(parts, min(3, len(parts)))]
    many += pick.sample(pairs, min(4, len(pairs)))
    if loops:
        many = many if len(many) <= 12 else pick.sample(many, 12)
        return few[:9] + many
    return few[:6]


USUAL = [("", text, "") for text in (
    "a", " ", "a ", "aB1_", "(", ")", "()", "[", "[]", "{", "{}", "<", "<a>", '"', "'", "`", "`a` ", "\\", "*", "**a** ", "_a_ ", "/", "//",
    "#", "&", "&a;", "-", "--", "=", "a=1 ", "a,", "a.", "a(", "a[", "1", "1.", "$", "$a", "@a ", "a:", ";", "|", "a|b ", "[a](b) ", "\t", "!", "\u00e9",
)]


def line(recipe, size):
    head, unit, tail = recipe
    turns = max(1, (size - len((head + tail).encode())) // len(unit.encode()))
    return head + unit * turns + tail
