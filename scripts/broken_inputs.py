#!/usr/bin/env python3
"""Runs syncat over broken inputs, and counts what it answers; or calls of the library.

    python3 scripts/broken_inputs.py SYNCAT MATERIAL COUNT SEED [KEEP]
    python3 scripts/broken_inputs.py --calls FAULTS FOLDER COUNT SEED [KEEP]

SYNCAT is the built program. MATERIAL is a folder with `grammars`, `themes` (JSON) and `texts`, real ones. Each of COUNT runs
takes one grammar, a theme, a file of metadata and a part of a text, and breaks one of them, or the patterns of the grammar, in
up to four places: bytes are dropped, doubled, swapped or changed, lines are moved, doubled or left out, marks of the formats and
bytes that are no UTF-8 are put in. SEED makes the runs: the same one makes the same inputs.

A run may end with status 0, and then says nothing on standard error; or with status 1, one of the program's lines on standard
error and nothing on standard output. It has 20 seconds, 2 GB of memory and 1 MB of stack. What ends otherwise is printed, its
inputs are kept in the folder KEEP (broken_inputs in the current one), and the status is 1. At the end the answers are
counted by what was broken.

With --calls FAULTS is the built syntect_check_faults, and COUNT inputs are made of each file of FOLDER (its data/broken): grammars,
themes, settings, patterns and texts, each of which the library has to answer. Each input has the same limits. One that is not
answered is kept in KEEP under its number and its file's name, and one that ends the program or runs past its time under that
of its run; `FAULTS input FILE` tries it again.
"""

import os
import random
import re
import resource
import shutil
import subprocess
import sys
import tempfile
import time
from collections import Counter
from concurrent.futures import ThreadPoolExecutor

SECONDS = 20
MEMORY = 2 << 30
STACK = 1 << 20
WORKERS = 2
KINDS = ["grammar", "pattern", "theme", "metadata", "text"]
LINES = [
    "syncat: cannot load syntaxes\n",
    "syncat: cannot load theme\n",
    "syncat: cannot read file\n",
    "syncat: cannot highlight\n",
]
NO_TEXT = [b"\xff", b"\xc3", b"\xed\xa0\x80", b"\xf4\x90\x80\x80", b"\xc0\x80", b"\xe2\x82", b"\x80"]
MARKS = """: |- |#| #|||>|&x |*x|{|}|[|]|"|'|%|---|...|,|?|!|@|`|~|null|true|9223372036854775808|-1|1e9|0.5|\\|\\n|\\t|\\x|\\u12|\t|\r|
|\0|\x7f|\ufeff|\u2028|é|(|)|(?=|(?!|(?<=|(?<!|(?>|(?<a>|(?i)|(?x)|[^|&&|[[:alpha:]]|*|+|?|++|{999}|{,1000}|{2,1}|{1001}|$|^|\\b|\\G|\\1|
|\\9|\\k<a>|\\p{L}|\\Q|(?m:$)|{{x}}|scope:source.x|scope: |pop: true|push: main|set: main|include: main|include: prototype|
|clear_scopes: 1|clear_scopes: true|meta_scope: a.b|captures: {1: a}|with_prototype: []|embed: main|escape: x|prototype:|contexts:|
|a.b.c.d.e.f.g.h.i|, |-| - |.|..|:main|#main|#ffff|#12345678|TM_COMMENT_START""".split("|")
METADATA = (
    b'{"scope":"source, text - comment","settings":{"increaseIndentPattern":"^.*\\\\{[^}\\"\']*$","decreaseIndentPattern":'
    b'"^\\\\s*\\\\}","unIndentedLinePattern":null,"indentParens":true,"shellVariables":[{"name":"TM_COMMENT_START","value":"// "},'
    b'{"name":"TM_COMMENT_START_2","value":"/*"},{"name":"TM_COMMENT_END_2","value":"*/"}]}}'
)


def break_bytes(chance, data):
    """Bytes, changed in one place."""
    size = len(data)
    at = chance.randrange(size + 1)
    to = min(size, at + chance.choice([1, 1, 2, 5, 20, 200]))
    way = chance.randrange(9)
    if way == 0:
        return data[:at] + data[to:]
    if way == 1:
        return data[:to] + data[at:to] * chance.choice([1, 1, 2, 50]) + data[to:]
    if way == 2:
        end = min(size, to + (to - at))
        return data[:at] + data[to:end] + data[at:to] + data[end:]
    if way == 3 and at < size:
        return data[:at] + bytes([chance.randrange(256)]) + data[at + 1 :]
    if way == 4:
        return data[:at] + chance.choice(NO_TEXT) + data[at:]
    if way == 5:
        return data[:at]
    if way == 6:
        return break_lines(chance, data)
    return data[:at] + chance.choice(MARKS).encode() + data[at:]


def break_lines(chance, data):
    """Lines, of which some are moved, doubled, left out or moved to the side."""
    lines = data.splitlines(keepends=True)
    if len(lines) < 2:
        return data
    at = chance.randrange(len(lines))
    some = lines[at : at + chance.choice([1, 1, 2, 8])]
    rest = lines[:at] + lines[at + len(some) :]
    way = chance.randrange(4)
    if way == 0:
        return b"".join(rest)
    if way == 1:
        to = chance.randrange(len(rest) + 1)
        return b"".join(rest[:to] + some + rest[to:])
    if way == 2:
        return b"".join(lines[:at] + some * chance.choice([2, 2, 9]) + lines[at + len(some) :])
    side = b" " * chance.randrange(1, 5)
    moved = [side + line if chance.random() < 0.7 else line.removeprefix(b"  ") for line in some]
    return b"".join(lines[:at] + moved + lines[at + len(some) :])


def break_patterns(chance, data):
    """A grammar, changed in one of its patterns."""
    lines = data.splitlines(keepends=True)
    found = [n for n, line in enumerate(lines) if re.match(rb"\s*(- )?(match|escape|first_line_match):", line)]
    if not found:
        return break_bytes(chance, data)
    at = chance.choice(found)
    head, _, tail = lines[at].partition(b":")
    inner = tail[2:-2]
    return b"".join(lines[:at] + [head + b":" + tail[:2] + break_bytes(chance, inner) + tail[-2:]] + lines[at + 1 :])


def extensions(grammar):
    """The extensions of a grammar's text."""
    found = re.search(rb"^file_extensions:\s*\n((?:\s*- .*\n)+)", grammar, re.M)
    words = re.findall(rb"- (.*)", found.group(1)) if found else []
    return [word.decode(errors="replace").strip("\"' ") for word in words]


class Material:
    """Real grammars, themes and texts."""

    def __init__(self, folder):
        def read(name):
            below = os.path.join(folder, name)
            return {file: open(os.path.join(below, file), "rb").read() for file in sorted(os.listdir(below))}

        self.grammars = read("grammars")
        self.themes = list(read("themes").values())
        self.texts = read("texts")

    def inputs(self, chance):
        """What is broken, and the files of a run by their names."""
        kind = chance.choice(KINDS)
        grammar = self.grammars[chance.choice(list(self.grammars))]
        ends = [end for end in extensions(grammar) if "/" not in end] or ["none"]
        fitting = [name for name in self.texts if name.rpartition(".")[2] in ends]
        lines = self.texts[chance.choice(fitting or list(self.texts))].splitlines(keepends=True)
        at = chance.randrange(len(lines) + 1)
        parts = {
            "grammar": grammar,
            "theme": chance.choice(self.themes),
            "metadata": METADATA,
            "text": b"".join(lines[at : at + 40])[:4000],
        }
        for _ in range(chance.choice([1, 1, 2, 4])):
            if kind == "pattern":
                parts["grammar"] = break_patterns(chance, parts["grammar"])
            else:
                parts[kind] = break_bytes(chance, parts[kind])
        end = ends[0]
        return kind, {
            "folder/a.sublime-syntax": parts["grammar"],
            "folder/a.tmPreferences": parts["metadata"],
            "theme.tmTheme": parts["theme"],
            f"text.{end}": parts["text"],
        }


def limited():
    """Limits of a run."""
    resource.setrlimit(resource.RLIMIT_AS, (MEMORY, MEMORY))
    resource.setrlimit(resource.RLIMIT_STACK, (STACK, STACK))
    resource.setrlimit(resource.RLIMIT_CORE, (0, 0))


def run(syncat, folder, files, form):
    """What the program answers."""
    os.makedirs(os.path.join(folder, "folder"))
    for name, data in files.items():
        with open(os.path.join(folder, name), "wb") as file:
            file.write(data)
    words = [syncat, "folder", "theme.tmTheme", form, next(name for name in files if name.startswith("text."))]
    begin = time.monotonic()
    try:
        done = subprocess.run(
            words, cwd=folder, capture_output=True, timeout=SECONDS, preexec_fn=limited, stdin=subprocess.DEVNULL
        )
    except subprocess.TimeoutExpired:
        return "TIME", SECONDS
    spent = time.monotonic() - begin
    err = done.stderr.decode(errors="replace")
    if done.returncode == 0 and not err and done.stdout:
        return "page", spent
    if done.returncode == 1 and not done.stdout and err in LINES:
        return err.removeprefix("syncat: ").strip(), spent
    if done.returncode < 0:
        return f"SIGNAL {-done.returncode}", spent
    return f"WRONG {done.returncode} {len(done.stdout)} {err[:200]!r}", spent


def one(syncat, material, seed, number, keep, work):
    """One run: what was broken, what is answered, and the seconds."""
    chance = random.Random(f"{seed} {number}")
    kind, files = material.inputs(chance)
    folder = os.path.join(work, str(number))
    answer, spent = run(syncat, folder, files, chance.choice(["html", "term"]))
    if answer[0].isupper():
        os.makedirs(keep, exist_ok=True)
        shutil.move(folder, os.path.join(keep, f"{seed}-{number}"))
    else:
        shutil.rmtree(folder)
    return number, kind, answer, spent


def is_late(folder):
    """Whether the input that is being tried stands there for longer than it may take."""
    times = [os.path.getmtime(os.path.join(folder, name)) for name in os.listdir(folder)]
    return bool(times) and time.time() - max(times) > SECONDS


def run_calls(faults, folder, count, seed, kept):
    """A run of the calls over so many inputs of each file: how it ends, and what it prints of each file."""
    os.makedirs(kept)
    words = [faults, "broken", folder, str(count), str(seed), kept]
    with tempfile.TemporaryFile() as out:
        child = subprocess.Popen(words, stdout=out, stderr=subprocess.STDOUT, preexec_fn=limited, stdin=subprocess.DEVNULL)
        end = None
        while child.poll() is None:
            time.sleep(0.05)
            if is_late(kept):
                child.kill()
                end = "TIME"
        out.seek(0)
        told = out.read().decode(errors="replace")
    if child.returncode == 0:
        shutil.rmtree(kept)
    return end or child.returncode, told


def calls(faults, folder, count, seed, keep):
    """Runs of at most a thousand inputs of each file; whether all were answered."""
    figures, wrong, begin = Counter(), 0, time.monotonic()
    for first in range(0, count, 1000):
        part = min(1000, count - first)
        kept = os.path.join(keep, f"{seed}-{first}")
        end, told = run_calls(faults, folder, part, int(seed) * 1000003 + first, kept)
        for name, accepted, refused in re.findall(r"^(.*): (\d+) accepted, (\d+) refused$", told, re.M):
            figures[os.path.basename(name), "accepted"] += int(accepted)
            figures[os.path.basename(name), "refused"] += int(refused)
        if end != 0:
            wrong += 1
            print(f"run {seed}-{first}: {end}, kept in {kept}", flush=True)
    for (name, answer), value in sorted(figures.items()):
        print(f"{name}: {answer}: {value}")
    print(f"{sum(figures.values())} inputs answered in {time.monotonic() - begin:.0f} s, {wrong} runs wrong")
    return wrong == 0


def main():
    if sys.argv[1:2] == ["--calls"] and len(sys.argv) in (6, 7):
        keep = os.path.abspath(sys.argv[6] if len(sys.argv) == 7 else "broken_inputs")
        faults, folder = os.path.abspath(sys.argv[2]), os.path.abspath(sys.argv[3])
        sys.exit(0 if calls(faults, folder, int(sys.argv[4]), sys.argv[5], keep) else 1)
    if len(sys.argv) not in (5, 6):
        sys.exit(__doc__)
    syncat, material = os.path.abspath(sys.argv[1]), Material(sys.argv[2])
    count, seed = int(sys.argv[3]), sys.argv[4]
    keep = os.path.abspath(sys.argv[5] if len(sys.argv) == 6 else "broken_inputs")
    figures, wrong, longest, begin = Counter(), 0, (0, 0), time.monotonic()
    with tempfile.TemporaryDirectory() as work, ThreadPoolExecutor(WORKERS) as pool:
        runs = pool.map(lambda number: one(syncat, material, seed, number, keep, work), range(count))
        for number, kind, answer, spent in runs:
            figures[kind, answer] += 1
            longest = max(longest, (spent, number))
            if answer[0].isupper():
                wrong += 1
                print(f"run {number}: {kind}: {answer}", flush=True)
    for (kind, answer), value in sorted(figures.items()):
        print(f"{kind}: {answer}: {value}")
    print(f"{count} runs in {time.monotonic() - begin:.0f} s, the longest {longest[0]:.2f} s (run {longest[1]}), {wrong} wrong")
    sys.exit(1 if wrong else 0)


main()
