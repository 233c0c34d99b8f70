#!/usr/bin/env python3
"""Looks for lines that cost: lines made of the pieces of a folder's own patterns, timed beside syntect 5.3.0.

    python3 scripts/costly_lines.py SYNCAT ORACLE GRAMMARS THEME LIST [--grammar NAME].. [--seconds N] [--seed N]
        [--unproved] [--again LIST]

SYNCAT is the built program, run as `SYNCAT FOLDER THEME html FILE`, and ORACLE a program on the crate, run as `ORACLE html
FOLDER THEME FILE`; both read FILE line by line. GRAMMARS is a folder of .sublime-syntax files, and THEME a theme. What is
found is written to LIST, a table with tabs, worst ratio first; the status is 1 if there is anything in it. NAME is a grammar's
file without its ending. --seconds is for all grammars together: each gets an even share of what is left; without it all lines
are tried. --seed makes other lines. --again times the lines of an earlier list, and makes none. --unproved is for a SYNCAT
without proof: it is to take 1.8 times as long as it may otherwise, since the checks that it has make it that much slower.
75 grammars take some twelve minutes, or as long as they are given. It needs Linux and PyYAML.

The lines: each pattern is read into a tree, and texts are made that match its parts: its literals, letters of its classes,
its alternatives, what it repeats and what it looks for. A line is a head, a unit that is repeated, and a tail: a part again
and again, two parts in turn, and what stands before a loop, then what the loop repeats, then a character that fails. A line
is read in the context that has its pattern, or, where that one is only included, in one that includes it: each context of
the grammar gets a name, another grammar has a line that enters the one whose number it has, and that leaves all contexts when
it begins. In `main` there are lines of the usual characters of texts as well.

The time is the processor's for the line alone: a program gets its lines through a pipe, each when it waits for one, and the
kernel tells how long it ran in between; it is the middle one of three where it is short. Loading is outside. First all lines
have 1 KB and a quarter of that here. Then the slowest of each context, and those that grow, are read by the crate too, which
gets no more time than they took. What still may be above, at most 20 lines of a grammar and five of a context, is grown from
0.5 to 8 KB, or till it takes a tenth of a second. Listed is what takes more than twice the crate's time and 2 ms ("time"),
what takes more than 2.2 times as long when the line is doubled, twice, and 2 ms then ("growth"), and what takes more than 30
MB more than an empty line ("memory"). So what is mended may show what it hid: the list is to be made anew.

The columns: the grammar; the context; the pattern of those it tries that costs most alone on the line; the pattern of whose
pieces the line is; the line as [head, unit, tail]; why it is listed; bytes, with ms here and of the crate and their ratio at
that size, where `>` tells what it was given; the growth here and of the crate when the line is doubled the last time; ms here
at 0.5, 1, 2, 4 and 8 KB; and MB here and of the crate.
"""

import argparse
import fcntl
import json
import os
import random
import resource
import shutil
import struct
import subprocess
import sys
import tempfile
import termios
import time

import yaml

from pattern_lines import USUAL, line, lines_of

SIZES = (512, 1024, 2048, 4096, 8192)
LONG, SHORT_LINE = 1024, 256
MARK = "\x03"  # no line has it
MOST = 3.0  # seconds that a line may take before it is given up
ENOUGH = 0.1  # seconds of a line that isn't made longer
UNPROVED = 1.8
KEPT = 5  # lines of one context that are grown
GROWN = 20  # lines of one grammar that are grown
SLOW = 12  # lines of more than 0.1 seconds at 1 KB after which a context's other lines are left for another time
EVERY = 800  # lines after which a program is begun anew, since its page grows
MEMORY = 4 << 30


# Grammars, with each context named, and the grammar that enters them.


def flow(value):
    """A value as YAML on one line."""
    if isinstance(value, dict):
        return "{" + ", ".join(f"{flow(k)}: {flow(v)}" for k, v in value.items()) + "}"
    if isinstance(value, list):
        return "[" + ", ".join(map(flow, value)) + "]"
    return json.dumps(value, ensure_ascii=False)


def item_prototypes(items):
    """The items of the prototypes that a context's items bring."""
    return [x for item in items if isinstance(item.get("with_prototype"), list) for x in item["with_prototype"]]


class Grammar:
    def __init__(self, path):
        with open(path) as file:
            self.data = yaml.load(file, getattr(yaml, "CSafeLoader", yaml.SafeLoader))
        self.name = os.path.basename(path)[: -len(".sublime-syntax")]
        self.path, self.scope = path, self.data["scope"]
        self.contexts = dict(self.data["contexts"])
        for name in list(self.contexts):
            self.contexts[name] = self.named(self.contexts[name])
        self.scopes = set()
        self.references(self.data["contexts"])

    def named(self, items):
        """A context whose inner contexts have names."""
        rows = []
        for item in items or []:
            item = dict(item)
            for key in ("push", "set"):
                value = item.get(key)
                if isinstance(value, list):
                    item[key] = self.inner(value) if any(isinstance(x, dict) for x in value) else [
                        self.inner(x) if isinstance(x, list) else x for x in value
                    ]
            if isinstance(item.get("with_prototype"), list):
                item["with_prototype"] = self.named(item["with_prototype"])
            rows.append(item)
        return rows

    def inner(self, items):
        name = f"inner{len(self.contexts)}"
        self.contexts[name] = None
        self.contexts[name] = self.named(items)
        return name

    def references(self, value):
        if isinstance(value, dict):
            for key, part in value.items():
                if key in ("push", "set", "include", "embed"):
                    for name in part if isinstance(part, list) else [part]:
                        if isinstance(name, str) and name.startswith("scope:"):
                            self.scopes.add(name[6:].split("#")[0])
                self.references(part)
        elif isinstance(value, list):
            for part in value:
                self.references(part)

    def entered(self):
        """The contexts that are pushed or set, or begin: the others are only included."""
        names = {"main"}
        for items in self.contexts.values():
            for item in items + [x for x in item_prototypes(items)]:
                for key in ("push", "set"):
                    value = item.get(key)
                    names |= {x for x in (value if isinstance(value, list) else [value]) if isinstance(x, str)}
        return names & set(self.contexts)

    def included(self, name, seen):
        """The contexts that one has, itself and by its includes."""
        if name in self.contexts and name not in seen:
            seen.add(name)
            for item in self.contexts[name]:
                self.included(str(item.get("include")), seen)
        return seen

    def readers(self):
        """For each context those that are entered and have its patterns."""
        found = {name: [] for name in self.contexts}
        for name in sorted(self.entered()):
            for part in self.included(name, set()):
                found[part].append(name)
        for part in self.included("prototype", set()):
            found[part].append("main")
        return found

    def patterns(self, name):
        return [item["match"] for item in self.contexts[name] if isinstance(item.get("match"), str)]

    def all_patterns(self, name, grammars, seen):
        """The patterns of a context with those of what it includes."""
        if (self.name, name) in seen or name not in self.contexts:
            return []
        seen.add((self.name, name))
        rows = list(self.all_patterns("prototype", grammars, seen))
        for item in self.contexts[name]:
            if isinstance(item.get("match"), str):
                rows.append(item["match"])
            included = item.get("include")
            if isinstance(included, str) and included.startswith("scope:"):
                scope, _, part = included[6:].partition("#")
                for other in grammars:
                    if other.scope == scope:
                        rows += other.all_patterns(part or "main", grammars, seen)
            elif isinstance(included, str):
                rows += self.all_patterns(included, grammars, seen)
        return rows

    def write(self, folder):
        with open(os.path.join(folder, self.name + ".sublime-syntax"), "w") as out:
            out.write("%YAML 1.2\n---\n")
            for key, value in self.data.items():
                if key != "contexts":
                    out.write(f"{key}: {flow(value)}\n")
            out.write("contexts:\n")
            for name, items in self.contexts.items():
                out.write(f"  {flow(name)}:" + ("\n" if items else " []\n"))
                out.writelines(f"    - {flow(item)}\n" for item in items)


def write_entry(folder, scope, names):
    """The grammar whose lines enter a context of another one: a mark, the context's number, three letters."""
    leaving = [{"match": "(?=\\x03)", "pop": True}]
    main = [
        {"match": "\\x03", "push": "select"},
        {"match": "(?=[^\\x03\\n])", "push": f"scope:{scope}", "with_prototype": leaving},
    ]
    select = [
        {"match": f"{n} (E)(E)(E)\\n", "set": f"scope:{scope}" + ("" if name == "main" else "#" + name), "with_prototype": leaving}
        for n, name in enumerate(names)
    ]
    with open(os.path.join(folder, "Entry.sublime-syntax"), "w") as out:
        out.write("%YAML 1.2\n---\nname: Entry\nscope: source.entry\nfile_extensions: [entry]\ncontexts:\n  main:\n")
        out.writelines(f"    - {flow(item)}\n" for item in main)
        out.write("  select:\n")
        out.writelines(f"    - {flow(item)}\n" for item in select)


def write_lone(folder, patterns):
    """A grammar with a context for each pattern, alone, and the grammar that enters them."""
    names = [f"c{n}" for n in range(len(patterns))]
    with open(os.path.join(folder, "Lone.sublime-syntax"), "w") as out:
        out.write("%YAML 1.2\n---\nname: Lone\nscope: source.lone\nfile_extensions: [lone]\ncontexts:\n  main: []\n")
        for name, pattern in zip(names, patterns):
            out.write(f"  {name}:\n    - {flow({'match': pattern, 'scope': 'word'})}\n")
    write_entry(folder, "source.lone", names)


# Programs that are given a line at a time.


def limited():
    resource.setrlimit(resource.RLIMIT_AS, (MEMORY, MEMORY))
    resource.setrlimit(resource.RLIMIT_CORE, (0, 0))


class Reading:
    """A program that reads a pipe; `cost` gives it a line and answers the seconds that it ran for."""

    def __init__(self, words, folder, theme):
        self.words, self.folder, self.theme, self.child, self.given = words, folder, theme, None, 0

    def begin(self):
        self.end()
        path = os.path.join(self.folder, "..", "pipe.entry")
        if os.path.exists(path):
            os.unlink(path)
        os.mkfifo(path)
        self.pipe = os.open(path, os.O_RDWR)
        fcntl.fcntl(self.pipe, 1031, 1 << 18)  # room for long lines
        with open(os.path.join(self.folder, "..", "told"), "wb") as told:
            self.child = subprocess.Popen(
                self.words(self.folder, self.theme, path), stdout=subprocess.DEVNULL, stderr=told, preexec_fn=limited
            )
        self.given = 0
        self.wait(60, True)

    def end(self):
        if self.child:
            self.child.kill()
            self.child.wait()
            os.close(self.pipe)
            self.child = None

    def ran(self):
        with open(f"/proc/{self.child.pid}/schedstat") as file:
            return int(file.read().split()[0]) / 1e9

    def waits(self):
        left = struct.unpack("i", fcntl.ioctl(self.pipe, termios.FIONREAD, b"\0\0\0\0"))[0]
        if left:
            return False
        with open(f"/proc/{self.child.pid}/wchan") as file:
            return "pipe" in file.read()

    def wait(self, seconds, first=False):
        """Whether the program waits for a line before it has run so long."""
        begin, pause = self.ran() if not first else 0, 2e-5
        while True:
            if self.child.poll() is not None:
                return False
            if self.waits():
                return True
            if self.ran() - begin > seconds:
                return False
            time.sleep(pause)
            pause = min(pause * 1.3, 0.005)

    def size(self):
        """The most memory that the program has had, in MB."""
        if not self.child:
            return None
        with open(f"/proc/{self.child.pid}/status") as file:
            return next(int(row.split()[1]) / 1024 for row in file if row.startswith("VmHWM"))

    def give(self, text, seconds):
        """The seconds for a line, or none past its time; then the program is gone."""
        if not self.child or self.given > EVERY:
            self.begin()
        self.given += 1
        begin = self.ran()
        os.write(self.pipe, text.encode())
        if not self.wait(seconds):
            died = self.child.poll() is not None
            self.end()
            if died:
                with open(os.path.join(self.folder, "..", "told"), errors="replace") as told:
                    print(self.words("", "", "")[0], "ended:", told.read().strip()[:200], file=sys.stderr, flush=True)
            return None
        return self.ran() - begin

    def roughly(self, context, text):
        """The seconds for a line and for entering its context."""
        return self.give(f"{MARK}{context} EEE\n{text}\n", MOST)

    def cost(self, context, text, rounds=1, most=MOST):
        """The seconds for a line in a context, the middle one of some rounds; none where it takes more than the most."""
        found = []
        for _ in range(rounds):
            if self.give(f"{MARK}{context} EEE\n", MOST) is None:
                return None
            spent = self.give(text + "\n", most)
            if spent is None:
                return None
            if spent > 0.05:
                return spent
            found.append(spent)
        # where the kernel takes a processor's stolen time off, it may tell of none
        return max(sorted(found)[len(found) // 2], 1e-6)


COLUMNS = ["grammar", "context", "costs alone", "pieces of", "line", "why", "bytes", "ms here", "ms crate", "ratio"]
COLUMNS += ["growth here", "growth crate", "ms here by size", "MB here", "MB crate"]


class Search:
    def __init__(self, words):
        self.words = words
        self.factor = UNPROVED if words.unproved else 1
        self.rows = []
        paths = sorted(f for f in os.listdir(words.GRAMMARS) if f.endswith(".sublime-syntax"))
        self.grammars = [Grammar(os.path.join(words.GRAMMARS, f)) for f in paths]
        syncat, oracle = os.path.abspath(words.SYNCAT), os.path.abspath(words.ORACLE)
        self.here = lambda folder, theme, file: [syncat, folder, theme, "html", file]
        self.crate = lambda folder, theme, file: [oracle, "html", folder, theme, file]
        self.theme = os.path.abspath(words.THEME)

    def reach(self, grammar):
        found, left = {grammar.name: grammar}, [grammar]
        while left:
            for scope in left.pop().scopes:
                for other in self.grammars:
                    if other.scope == scope and other.name not in found:
                        found[other.name] = other
                        left.append(other)
        return list(found.values())

    def recipes(self, grammar):
        """The lines of a grammar by its contexts, with the pattern of which each is."""
        found, readers = {}, grammar.readers()
        for name in grammar.contexts:
            pick = random.Random(f"{self.words.seed} {grammar.name} {name}")
            if not readers[name]:
                continue
            reader = name if name in readers[name] else pick.choice(readers[name])
            lines = found.setdefault(reader, {})
            for pattern in grammar.patterns(name):
                for recipe in lines_of(pattern, pick):
                    recipe = tuple(x.replace("\n", "").replace(MARK, "") for x in recipe)
                    if recipe[1]:
                        lines.setdefault(recipe, pattern)
            if name == "main":
                for recipe in USUAL:
                    lines.setdefault(recipe, "")
        return {name: lines for name, lines in found.items() if lines}

    def look(self, grammar, seconds, earlier=None):
        with tempfile.TemporaryDirectory() as room:
            folder = os.path.join(room, "folder")
            os.mkdir(folder)
            for other in self.reach(grammar):
                if other.name != grammar.name:
                    shutil.copy(other.path, folder)
            grammar.write(folder)
            recipes = earlier if earlier is not None else self.recipes(grammar)
            names = list(recipes)
            write_entry(folder, grammar.scope, names)
            here, crate = Reading(self.here, folder, self.theme), Reading(self.crate, folder, self.theme)
            try:
                self.sift(grammar, recipes, names, here, crate, room, seconds, earlier is not None)
            finally:
                here.end()
                crate.end()

    def sift(self, grammar, recipes, names, here, crate, room, seconds, all_grown):
        begin, tried, total = time.monotonic(), 0, sum(map(len, recipes.values()))
        chosen = []
        # contexts in an order of the seed, so that a short time sees some of everything
        order = list(range(len(names)))
        random.Random(self.words.seed).shuffle(order)
        order.sort(key=lambda n: names[n] != "main")
        for number in order:
            if time.monotonic() > begin + 0.6 * seconds and not all_grown:
                break
            if all_grown:
                chosen += [(1, number, recipe) for recipe in recipes[names[number]]]
                continue
            first = []
            for recipe in recipes[names[number]]:
                tried += 1
                found = self.suspect(number, recipe, here)
                if found:
                    first.append((*found, recipe))
                if sum(x[1] > 0.1 for x in first) > SLOW:
                    break
            chosen += [(ratio, number, recipe) for ratio, recipe in self.beside(number, first, crate)]
        sifted = time.monotonic() - begin
        count = len(self.rows)
        if not all_grown:
            chosen = self.worst(chosen)
        grown = 0
        for _, number, recipe in chosen:
            if grown >= KEPT and time.monotonic() > begin + seconds and not all_grown:
                break
            grown += 1
            pattern = recipes[names[number]][recipe]
            self.grow(grammar, names[number], number, recipe, pattern, here, crate, room)
        left = "" if tried == total or all_grown else f" of {total}"
        print(
            f"{grammar.name}: {len(names)} contexts, {tried}{left} lines, {grown} of {len(chosen)} grown,"
            f" {len(self.rows) - count} listed,"
            f" {sifted:.0f} + {time.monotonic() - begin - sifted:.0f} s",
            flush=True,
        )

    def worst(self, chosen):
        """The worst of a grammar, each line in two contexts at most."""
        kept, met = [], {}
        for ratio, number, recipe in sorted(chosen, key=lambda x: -x[0]):
            met[recipe] = met.get(recipe, 0) + 1
            if met[recipe] <= 2 and len(kept) < GROWN:
                kept.append((ratio, number, recipe))
        return kept

    def suspect(self, number, recipe, here):
        """Whether a line of 1 KB is "past" its time, takes "memory", "grows", or may be above, with its seconds; or none."""
        if not here.child:
            here.begin()
        size = here.size()
        long = here.roughly(number, line(recipe, LONG))
        if long is None:
            return "past", MOST
        if here.given > 1 and here.size() - size > 6:
            here.end()  # what it takes next is to be seen again
            return "memory", long
        # what is linear takes eight times as long at 8 KB
        if long * 16 < 0.002 * self.factor:
            return None
        short = here.roughly(number, line(recipe, SHORT_LINE)) or 1e-6
        if long > 4.4 * short:
            long, short = here.cost(number, line(recipe, LONG), 3), here.cost(number, line(recipe, SHORT_LINE), 3)
            if long is None or short is None:
                return "past", MOST
            if long > 4.6 * short and long * (long / short) ** 1.5 > 0.002 * self.factor:
                return "grows", long
        return ("", long) if long * 8 > 0.002 * self.factor else None

    def beside(self, number, first, crate):
        """Those of a context to be grown: the worst that take more than the crate, and two that grow."""
        above, growing = [], []
        first.sort(key=lambda x: -x[1])
        if first:
            crate.roughly(number, line(first[0][2], 128))  # patterns are compiled as they are met
        for why, long, recipe in first[: 4 * KEPT]:
            text = line(recipe, LONG)
            spent = crate.cost(number, text, 1, max(0.02, long))
            if spent and long > 1.5 * self.factor * spent:
                spent = crate.cost(number, text, 3)
            ratio = long / (spent or MOST)
            if ratio > 1.6 * self.factor or why in ("past", "memory"):
                above.append((ratio, recipe))
            elif why:
                growing.append((min(ratio, 0.1), recipe))
        return sorted(above, key=lambda x: -x[0])[:KEPT] + growing[:2]

    def grow(self, grammar, name, number, recipe, pattern, here, crate, room):
        ours, theirs, before = [], [], []
        for reading in (here, crate):
            reading.begin()
            reading.cost(number, "")
            before.append(reading.size())
        for size in SIZES:
            text = line(recipe, size)
            if ours and (ours[-1] or MOST) > ENOUGH:
                break
            ours.append(here.cost(number, text, 3))
            past = theirs and theirs[-1] is None
            theirs.append(None if past else crate.cost(number, text, 3, max(0.05, 2 * (ours[-1] or MOST))))
        at, why = None, set()
        for place, (a, b) in enumerate(zip(ours, theirs)):
            a = MOST if a is None else a
            if a > 0.002 * self.factor and b and a > 2 * self.factor * b:
                at = place
                why.add("time")
        pairs = [(a, b) for a, b in zip(ours, ours[1:]) if a is not None]
        doubled = [1e3 if b is None else b / a for a, b in pairs]
        if len(doubled) > 1 and min(doubled[-2:]) > 2.2 and (ours[-1] or MOST) > 0.002 * self.factor:
            why.add("growth")
        last = len(ours) - 1
        mb = [None if None in (x, y) else y - x for x, y in zip(before, (here.size(), crate.size()))]
        if mb[0] is None or mb[0] > 30:
            why.add("memory")
        if not why:
            return
        at = last if at is None else at
        a, b = ours[at], theirs[at]
        ms = [f"{x * 1000:.2f}" if x is not None else f">{MOST * 1000:.0f}" for x in ours]
        ratio = (a or MOST) / b if b else 0.5
        growths = [f"{x[-1] / x[-2]:.2f}" if len(x) > 1 and None not in x[-2:] else "-" for x in (ours, theirs)]
        self.rows.append(
            dict(
                zip(
                    COLUMNS,
                    [grammar.name, name, self.cause(grammar, name, recipe, ours, room), pattern, json.dumps(recipe)]
                    + ["+".join(sorted(why)), SIZES[at], ms[at], f"{b * 1000:.2f}" if b else f">{max(0.05, 2 * (a or MOST)) * 1000:.0f}"]
                    + [f"{ratio:.2f}", *growths, " ".join(ms)]
                    + [f"{x:.0f}" if x is not None else "-" for x in mb],
                )
            )
        )

    def cause(self, grammar, name, recipe, ours, room):
        """The pattern that costs most alone on the line, of those that the context has."""
        patterns = list(dict.fromkeys(grammar.all_patterns(name, self.grammars, set())))
        size = max((s for s, x in zip(SIZES, ours) if x is not None and x < 0.02), default=SIZES[0])
        folder = os.path.join(room, "lone", "folder")
        shutil.rmtree(folder, ignore_errors=True)
        os.makedirs(folder)
        write_lone(folder, patterns)
        lone = Reading(self.here, folder, self.theme)
        found = []
        try:
            for number, pattern in enumerate(patterns[:400]):
                spent = lone.cost(number, line(recipe, size))
                found.append((MOST if spent is None else spent, pattern))
        finally:
            lone.end()
        return max(found)[1] if found else ""

    def write(self):
        def ratio(row):
            return -float(row["ratio"])

        def told(text):
            return str(text).replace("\\", "\\\\").replace("\n", "\\n").replace("\t", "\\t")

        with open(self.words.LIST, "w") as out:
            out.write("\t".join(COLUMNS) + "\n")
            for row in sorted(self.rows, key=ratio):
                row = {**row, "costs alone": told(row["costs alone"]), "pieces of": told(row["pieces of"])}
                out.write("\t".join(str(row[name]) for name in COLUMNS) + "\n")


def earlier_lines(path):
    """The lines of a list, by grammar and context."""
    found = {}
    with open(path) as file:
        head = file.readline().rstrip("\n").split("\t")
        for text in file:
            row = dict(zip(head, text.rstrip("\n").split("\t")))
            lines = found.setdefault(row["grammar"], {}).setdefault(row["context"], {})
            lines[tuple(json.loads(row["line"]))] = row["pieces of"]
    return found


def main():
    words = argparse.ArgumentParser(usage=__doc__)
    for name in ("SYNCAT", "ORACLE", "GRAMMARS", "THEME", "LIST"):
        words.add_argument(name)
    words.add_argument("--grammar", action="append")
    words.add_argument("--seconds", type=float)
    words.add_argument("--seed", type=int, default=1)
    words.add_argument("--unproved", action="store_true")
    words.add_argument("--again")
    words = words.parse_args()
    earlier = earlier_lines(words.again) if words.again else None
    search = Search(words)
    chosen = [g for g in search.grammars if not words.grammar or g.name in words.grammar]
    if earlier is not None:
        chosen = [g for g in chosen if g.name in earlier]
    end = time.monotonic() + words.seconds if words.seconds else None
    for place, grammar in enumerate(chosen):
        share = max(0, end - time.monotonic()) / (len(chosen) - place) if end else 1e9
        search.look(grammar, share, earlier[grammar.name] if earlier is not None else None)
        search.write()
    search.write()
    sys.exit(1 if search.rows else 0)


if __name__ == "__main__":
    main()
