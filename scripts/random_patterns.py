#!/usr/bin/env python3
"""Asks the pattern engine random queries, and compares its answers with a second reading of the dialect.

    python3 scripts/random_patterns.py BENCH COUNT SEED

BENCH is the built program syntect_bench. COUNT patterns are made of the whole dialect, some of them faulty, each with a few
texts whose characters have one to four bytes; SEED makes them: the same one makes the same queries. This script reads each
pattern by rules of its own and lists its matches one by one in order of preference, as slowly as they are said; a query that
takes it too long is left out. What `BENCH answers` says otherwise is printed, and the status is 1 then. At the end the
queries are counted by their answers.
"""

import os
import random
import subprocess
import sys
import tempfile
import unicodedata
from collections import Counter

STEPS = 20000
CATEGORIES = (
    "L M N P S Z C Lu Ll Lt Lm Lo Mn Mc Me Nd Nl No Pc Pd Ps Pe Pi Pf Po Sm Sc Sk So Zs Zl Zp Cc Cf Cs Co Cn"
).split()
# The characters of one simple folding, as far as they can meet here; other letters of ASCII fold with their pair.
ALIKE = ["kK\u212a", "sS\u017f", "\u00e9\u00c9", "\u03c3\u03c2\u03a3", "\u00b5\u03bc\u039c", "\u00e5\u00c5\u212b"]
ALIKE += [c + c.upper() for c in "abcdefghijlmnopqrtuvwxyz"]
FOLDS = {c: group for group in ALIKE for c in group}
SPACE = "\t\n\x0b\x0c\r \x85\u00a0\u2003\u2028"
LETTERS = "aabbcdkKsSxyzAB01_ -.\n\t"
OTHERS = "\u00e9\u00c9\u017f\u212a\u03c3\u03a3\u00b5\u0301\u0663\u2167\u00b2\u00a0\u2028\u4e2d\u3042\U0001f642\U00010400\ufeff"
POSIX = {
    "alpha": lambda c: cat(c)[0] == "L",
    "alnum": lambda c: cat(c)[0] in "LN",
    "lower": lambda c: cat(c) == "Ll",
    "upper": lambda c: cat(c) == "Lu",
    "digit": lambda c: cat(c) == "Nd",
    "space": lambda c: c in SPACE,
    "word": lambda c: is_word(c),
    "xdigit": lambda c: is_hex(c),
    "blank": lambda c: c in " \t",
    "cntrl": lambda c: cat(c) == "Cc",
    "punct": lambda c: cat(c)[0] == "P",
    "ascii": lambda c: ord(c) < 128,
}
CONTROLS = {"n": "\n", "t": "\t", "r": "\r", "f": "\f", "v": "\v", "a": "\a", "e": "\x1b"}


class NoPattern(Exception):
    pass


class TooLong(Exception):
    pass


def cat(c):
    return unicodedata.category(c)


def is_word(c):
    return cat(c)[0] in "LM" or cat(c) in ("Nd", "Pc")


def is_hex(c):
    return c in "0123456789abcdefABCDEF"


def alike(c):
    return FOLDS.get(c, c)


SHORT = {"w": is_word, "d": lambda c: cat(c) == "Nd", "s": lambda c: c in SPACE, "h": is_hex}


class Reader:
    """Reads a pattern's text: trees are tuples, sets of characters are functions."""

    def __init__(self, text):
        self.text, self.at, self.groups, self.names, self.deep = text, 0, 0, {}, 0
        self.asked = []

    def whole(self):
        tree = self.alternatives({"i": False, "m": False, "x": False})
        if self.at < len(self.text):
            raise NoPattern
        for name in self.asked:
            if (name not in self.names) if isinstance(name, str) else (name > self.groups):
                raise NoPattern
        return tree

    def peek(self, n=0):
        return self.text[self.at + n : self.at + n + 1]

    def take(self, text):
        if self.text.startswith(text, self.at):
            self.at += len(text)
            return True
        return False

    def alternatives(self, flags):
        """Alternatives; a bare flag holds up to the group's end."""
        flags = dict(flags)
        branches = [self.sequence(flags)]
        while self.take("|"):
            branches.append(self.sequence(flags))
        return branches[0] if len(branches) == 1 else ("alt", branches)

    def skip(self, flags):
        while True:
            if self.text.startswith("(?#", self.at):
                end = self.text.find(")", self.at)
                if end < 0:
                    raise NoPattern
                self.at = end + 1
            elif flags["x"] and self.peek() and self.peek() in SPACE:
                self.at += 1
            elif flags["x"] and self.peek() == "#":
                while self.peek() and self.peek() != "\n":
                    self.at += 1
            else:
                return

    def sequence(self, flags):
        items = []
        while True:
            self.skip(flags)
            if self.peek() in ("", "|", ")"):
                return ("seq", items)
            item = self.item(flags)
            if item is None:
                continue
            self.skip(flags)
            items.append(self.quantified(item, flags))

    def count(self):
        """A count in braces, or none where the brace is itself."""
        end = self.text.find("}", self.at)
        parts = self.text[self.at + 1 : end].split(",") if end >= 0 and self.peek() == "{" else []
        if len(parts) not in (1, 2) or not all(p == "" or p.isascii() and p.isdigit() for p in parts) or not any(parts):
            return None
        self.at = end + 1
        least = int(parts[0] or 0)
        most = least if len(parts) == 1 else int(parts[1]) if parts[1] else None
        if least > 1000 or most is not None and (most > 1000 or least > most):
            raise NoPattern
        return least, most

    def quantified(self, item, flags):
        if self.peek() and self.peek() in "*+?":
            bounds = {"*": (0, None), "+": (1, None), "?": (0, 1)}[self.peek()]
            self.at += 1
            is_sign = True
        else:
            bounds, is_sign = self.count(), False
            if bounds is None:
                return item
        if item[0] == "anchor":
            raise NoPattern
        if self.take("?"):
            item = ("loop", False, *bounds, item)
        elif is_sign and self.take("+"):
            item = ("atomic", ("loop", True, *bounds, item))
        else:
            item = ("loop", True, *bounds, item)
        self.skip(flags)
        if self.peek() and self.peek() in "*+?" or self.count() is not None:
            raise NoPattern
        return item

    def inside(self, flags):
        self.deep += 1
        if self.deep > 200:
            raise NoPattern
        tree = self.alternatives(flags)
        if not self.take(")"):
            raise NoPattern
        self.deep -= 1
        return tree

    def group(self, flags, name=None):
        self.groups += 1
        number = self.groups
        if name is not None:
            if name in self.names:
                raise NoPattern
            self.names[name] = number
        return ("group", number, self.inside(flags))

    def name(self, end):
        begin = self.at
        while self.peek() and (self.peek().isascii() and self.peek().isalnum() or self.peek() == "_"):
            self.at += 1
        name = self.text[begin : self.at]
        if not name or name[0].isdigit() or not self.take(end):
            raise NoPattern
        return name

    def bracket(self, flags):
        for sign, make in (
            ("?:", lambda: self.inside(flags)),
            ("?=", lambda: ("ahead", False, self.inside(flags))),
            ("?!", lambda: ("ahead", True, self.inside(flags))),
            ("?<=", lambda: ("behind", False, self.inside(flags))),
            ("?<!", lambda: ("behind", True, self.inside(flags))),
            ("?>", lambda: ("atomic", self.inside(flags))),
            ("?P<", lambda: self.group(flags, self.name(">"))),
            ("?<", lambda: self.group(flags, self.name(">"))),
        ):
            if self.take(sign):
                return make()
        if not self.take("?"):
            return self.group(flags)
        return self.flags(flags)

    def flags(self, flags):
        new, on, some = dict(flags), True, False
        while self.peek() not in (")", ":"):
            sign = self.peek()
            self.at += 1
            if sign == "-" and on:
                on, some = False, False
            elif sign and sign in "imx":
                new[sign], some = on, True
            else:
                raise NoPattern
        if not some:
            raise NoPattern
        if self.take(":"):
            return self.inside(new)
        self.at += 1
        flags.update(new)
        return None

    def item(self, flags):
        c = self.peek()
        self.at += 1
        if c == "(":
            return self.bracket(flags)
        if c == "[":
            return ("set", self.klass(flags))
        if c == "\\":
            return self.escape(flags)
        if c in "*+?":
            raise NoPattern
        if c == "{":
            self.at -= 1
            if self.count() is not None:
                raise NoPattern
            self.at += 1
        if c == "^":
            return ("anchor", "line start")
        if c == "$":
            return ("anchor", "line end")
        if c == ".":
            return ("set", (lambda d: True) if flags["m"] else (lambda d: d != "\n"))
        return ("set", one(c, flags))

    def escape(self, flags):
        c = self.peek()
        if c and c in "AzZbB":
            self.at += 1
            return ("anchor", c)
        if c and c in "123456789":
            self.at += 1
            self.asked.append(int(c))
            return ("same", flags["i"], int(c))
        if c == "k":
            self.at += 1
            if not self.take("<"):
                raise NoPattern
            name = self.name(">")
            self.asked.append(name)
            return ("same", flags["i"], name)
        kind, found = self.character()
        return ("set", found if kind == "set" else one(found, flags))

    def number(self, digits):
        if not digits or not all(is_hex(d) for d in digits):
            raise NoPattern
        code = int(digits, 16)
        if code > 0x10FFFF or 0xD800 <= code < 0xE000:
            raise NoPattern
        return chr(code)

    def character(self):
        """What stands behind a backslash, in a class and outside of one: a character, or a set."""
        c = self.peek()
        self.at += 1
        if c and c.lower() in SHORT and c in "wdshWDSH":
            test = SHORT[c.lower()]
            return "set", test if c.islower() else (lambda d: not test(d))
        if c in ("p", "P"):
            if not self.take("{"):
                raise NoPattern
            negated = self.take("^") != (c == "P") if c == "p" else True
            end = self.text.find("}", self.at)
            name = self.text[self.at : end]
            if end < 0 or name not in CATEGORIES:
                raise NoPattern
            self.at = end + 1
            return "set", lambda d: cat(d).startswith(name) != negated
        if c in CONTROLS:
            return "one", CONTROLS[c]
        if c == "x":
            if self.take("{"):
                end = self.text.find("}", self.at)
                digits = self.text[self.at : end] if end >= 0 else ""
                self.at = end + 1
                if len(digits) > 8:
                    raise NoPattern
                return "one", self.number(digits)
            digits, self.at = self.text[self.at : self.at + 2], self.at + 2
            if len(digits) < 2:
                raise NoPattern
            return "one", self.number(digits)
        if c == "u":
            digits, self.at = self.text[self.at : self.at + 4], self.at + 4
            if len(digits) < 4:
                raise NoPattern
            return "one", self.number(digits)
        if not c or cat(c)[0] == "L" or cat(c) == "Nd":
            raise NoPattern
        return "one", c

    def klass(self, flags):
        self.deep += 1
        if self.deep > 200:
            raise NoPattern
        negated = self.take("^")
        sides, members, first = [], [], True
        while first or self.peek() != "]":
            if not self.peek():
                raise NoPattern
            if self.take("&&"):
                sides.append(members)
                members, first = [], False
                continue
            members.append(self.member(flags, first))
            first = False
        self.at += 1
        self.deep -= 1
        sides.append(members)
        return lambda c: all(any(test(c) for test in side) for side in sides) != negated

    def single(self, first=False):
        """A member that is one character, or a set; `]` ends a class but at its beginning."""
        c = self.peek()
        self.at += 1
        if c == "\\":
            if self.take("b"):
                return "one", "\x08"
            return self.character()
        return "one", c

    def member(self, flags, first):
        if self.text.startswith("[:", self.at):
            end = self.text.find(":]", self.at + 2)
            name = self.text[self.at + 2 : end] if end >= 0 else "?"
            bare = name[1:] if name.startswith("^") else name
            if bare and bare.isascii() and bare.isalpha():
                if bare not in POSIX:
                    raise NoPattern
                self.at = end + 2
                test = POSIX[bare]
                return test if bare == name else (lambda c: not test(c))
        if self.take("["):
            return self.klass(flags)
        kind, low = self.single(first)
        if kind == "set":
            return low
        if self.peek() == "-" and self.peek(1) not in ("", "]", "[") and self.text[self.at + 1 : self.at + 3] != "&&":
            back = self.at
            self.at += 1
            kind, high = self.single()
            if kind == "one":
                if ord(high) < ord(low):
                    raise NoPattern
                return between(low, high, flags)
            self.at = back
        return one(low, flags)


def one(c, flags):
    return (lambda d: d in alike(c)) if flags["i"] else (lambda d: d == c)


def between(low, high, flags):
    if flags["i"]:
        return lambda d: any(low <= e <= high for e in alike(d))
    return lambda d: low <= d <= high


class Matcher:
    """Matches of a tree in a text, one after another, as (end, groups); groups are a tuple."""

    def __init__(self, text, names):
        self.text, self.names, self.left = text, names, STEPS

    def word_at(self, i):
        return 0 <= i < len(self.text) and is_word(self.text[i])

    def stands(self, kind, i):
        text, size = self.text, len(self.text)
        if kind == "line start":
            return i == 0 or text[i - 1] == "\n" and i < size
        if kind == "line end":
            return i == size or text[i] == "\n"
        if kind == "A":
            return i == 0
        if kind == "z":
            return i == size
        if kind == "Z":
            return i == size or i == size - 1 and text[i] == "\n"
        return (self.word_at(i - 1) != self.word_at(i)) == (kind == "b")

    def matches(self, tree, i, groups):
        self.left -= 1
        if self.left < 0:
            raise TooLong
        kind = tree[0]
        if kind == "set":
            if i < len(self.text) and tree[1](self.text[i]):
                yield i + 1, groups
        elif kind == "anchor":
            if self.stands(tree[1], i):
                yield i, groups
        elif kind == "seq":
            yield from self.joined(tree[1], 0, i, groups)
        elif kind == "alt":
            for branch in tree[1]:
                yield from self.matches(branch, i, groups)
        elif kind == "loop":
            yield from self.turns(tree, i, groups, tree[2], tree[3])
        elif kind == "group":
            for j, h in self.matches(tree[2], i, groups):
                yield j, h[: tree[1]] + ((i, j),) + h[tree[1] + 1 :]
        elif kind == "atomic":
            for found in self.matches(tree[1], i, groups):
                yield found
                return
        elif kind == "same":
            yield from self.again(tree, i, groups)
        else:
            yield from self.looked(tree, i, groups)

    def joined(self, items, at, i, groups):
        if at == len(items):
            yield i, groups
            return
        for j, h in self.matches(items[at], i, groups):
            yield from self.joined(items, at + 1, j, h)

    def turns(self, tree, i, groups, least, most):
        _, greedy, _, _, body = tree
        if not greedy and least == 0:
            yield i, groups
        if most != 0:
            for j, h in self.matches(body, i, groups):
                if j == i:
                    yield j, h
                else:
                    yield from self.turns(tree, j, h, max(least - 1, 0), None if most is None else most - 1)
        if greedy and least == 0:
            yield i, groups

    def again(self, tree, i, groups):
        number = tree[2] if isinstance(tree[2], int) else self.names[tree[2]]
        if groups[number] is None:
            return
        begin, end = groups[number]
        for k in range(begin, end):
            c, d = self.text[k], self.text[i : i + 1]
            if not d or not (d in alike(c) if tree[1] else d == c):
                return
            i += 1
        yield i, groups

    def looked(self, tree, i, groups):
        kind, negated, body = tree
        found = None
        for start in range(i, -1, -1) if kind == "behind" else [i]:
            for j, h in self.matches(body, start, groups):
                if kind == "ahead" or j == i:
                    found = h
                    break
            if found is not None:
                break
        if found is not None and not negated:
            yield i, found
        elif found is None and negated:
            yield i, groups

    def found(self, tree, count, begin):
        for i in range(begin, len(self.text) + 1):
            for j, groups in self.matches(tree, i, (None,) * (count + 1)):
                return ((i, j),) + groups[1:]
        return None


class Maker:
    """Makes texts of patterns, and texts to search."""

    def __init__(self, chance):
        self.chance, self.groups = chance, 0

    def character(self):
        return self.chance.choice(LETTERS if self.chance.random() < 0.8 else OTHERS)

    def text(self):
        return "".join(self.character() for _ in range(self.chance.choice([0, 1, 2, 3, 5, 8, 13])))

    def plain(self):
        c = self.character()
        if c in "\\^$.|?*+()[]{}" or self.chance.random() < 0.03:
            return "\\" + c if not c.isalnum() else c
        return c

    def escape(self):
        chance = self.chance
        way = chance.randrange(12)
        if way < 4:
            return "\\" + chance.choice("wdshWDSH")
        if way < 6:
            return "\\" + chance.choice("pP") + "{" + chance.choice(["", "^"]) + chance.choice(CATEGORIES) + "}"
        if way < 8:
            return "\\" + chance.choice("ntrfvae")
        if way < 9:
            return f"\\x{ord(chance.choice(LETTERS)):02x}"
        if way < 10:
            return f"\\x{{{ord(self.character()):x}}}"
        if way < 11:
            return f"\\u{min(ord(self.character()), 0xffff):04x}"
        return "\\" + chance.choice("qQGKRX0\u00e9\u0663-#&~/")

    def klass(self, depth):
        chance = self.chance
        parts = ["[", chance.choice(["", "", "^"]), chance.choice(["", "", "", "]"])]
        for _ in range(chance.randrange(1, 5)):
            way = chance.randrange(10)
            if way < 4:
                parts.append(self.plain())
            elif way < 6:
                low, high = sorted([self.character(), self.character()])
                parts.append((low + "-" + high).replace("\\", "\\\\").replace("]", "\\]").replace("[", "\\["))
            elif way < 7:
                parts.append(self.escape())
            elif way < 8:
                parts.append("[:" + chance.choice(["", "^"]) + chance.choice(list(POSIX) + ["none"]) + ":]")
            elif way < 9 and depth < 2:
                parts.append(self.klass(depth + 1))
            else:
                parts.append(chance.choice(["&&", "-", "\\b", "--"]))
        return "".join(parts) + "]"

    def quantifier(self):
        chance = self.chance
        if chance.random() < 0.65:
            return ""
        sign = chance.choice(["*", "+", "?", "{2}", "{1,}", "{,2}", "{1,3}", "{0}", "{", "{,}"])
        return sign + chance.choice(["", "", "", "?", "+"])

    def item(self, depth):
        chance = self.chance
        way = chance.randrange(20)
        if way < 8 or depth > 3:
            return self.plain() + self.quantifier()
        if way < 9:
            return "." + self.quantifier()
        if way < 11:
            return self.escape() + self.quantifier()
        if way < 13:
            return self.klass(0) + self.quantifier()
        if way < 14:
            return chance.choice(["^", "$", "\\A", "\\z", "\\Z", "\\b", "\\B"])
        if way < 15 and self.groups:
            return f"\\{chance.randrange(1, min(self.groups, 8) + 2)}" + self.quantifier()
        if way < 16:
            return chance.choice(["(?i)", "(?x)", "(?m)", "(?-i)", "(?#a b)", "(?ix-m)"])
        return self.bracket(depth)

    def bracket(self, depth):
        chance = self.chance
        opens = ["(", "(", "(", "(?:", "(?:", "(?>", "(?=", "(?!", "(?<=", "(?<!", "(?i:", "(?x-i:", "(?<n>", "(?P<m>"]
        begin = chance.choice(opens)
        if begin in ("(", "(?<n>", "(?P<m>"):
            self.groups += 1
        return begin + self.branches(depth + 1) + ")" + self.quantifier()

    def branches(self, depth):
        count = self.chance.choice([1, 1, 1, 2, 3])
        return "|".join("".join(self.item(depth) for _ in range(self.chance.randrange(4))) for _ in range(count))

    def pattern(self):
        self.groups = 0
        text = self.branches(0)
        if self.chance.random() < 0.03:
            at = self.chance.randrange(len(text) + 1)
            text = text[:at] + self.chance.choice("()[]{}*+?\\|^-&") + text[at:]
        return text


def place(text, i):
    return len(text[:i].encode())


def answer_of(pattern, text, begin):
    """The answer in the bench's form, or none where it takes too long."""
    try:
        reader = Reader(pattern)
        tree = reader.whole()
    except NoPattern:
        return "BAD"
    try:
        found = Matcher(text, reader.names).found(tree, reader.groups, begin)
    except (TooLong, RecursionError):
        return None
    if found is None:
        return "NONE"
    spans = ["-" if s is None else f"{place(text, s[0])}..{place(text, s[1])}" for s in found]
    while spans[-1] == "-":
        spans.pop()
    return " ".join(spans)


def escaped(text):
    return text.replace("\\", "\\\\").replace("\n", "\\n").replace("\t", "\\t").replace("\r", "\\r")


def main():
    if len(sys.argv) != 4:
        sys.exit(__doc__)
    bench, count, seed = os.path.abspath(sys.argv[1]), int(sys.argv[2]), int(sys.argv[3])
    maker = Maker(random.Random(seed))
    queries, wanted = [], []
    for _ in range(count):
        pattern = maker.pattern()
        for _ in range(3):
            text = maker.text()
            begin = maker.chance.randrange(len(text) + 1) if maker.chance.random() < 0.2 else 0
            answer = answer_of(pattern, text, begin)
            if answer is not None:
                queries.append(f"{escaped(pattern)}\t{escaped(text)}\t{place(text, begin)}")
                wanted.append(answer)
    with tempfile.NamedTemporaryFile("w", suffix=".tsv", encoding="utf-8", newline="\n") as file:
        file.write("\n".join(queries) + "\n")
        file.flush()
        said = subprocess.run([bench, "answers", file.name], capture_output=True, check=True).stdout.decode()
    lines = [line.strip() for line in said.split("\n")][: len(queries)]
    differ = [k for k in range(len(queries)) if k >= len(lines) or lines[k] != wanted[k]]
    for k in differ[:40]:
        print(f"{queries[k]}\n    by the rules: {wanted[k]}\n    by the engine: {lines[k] if k < len(lines) else 'nothing'}")
    kinds = Counter("found" if a[0].isdigit() else a for a in wanted)
    print(f"{len(queries)} queries, {len(differ)} differ; " + ", ".join(f"{kinds[k]} {k}" for k in sorted(kinds)))
    sys.exit(1 if differ else 0)


if __name__ == "__main__":
    sys.setrecursionlimit(20000)
    main()
