#!/usr/bin/env python3
"""Runs syncat over random small grammars of random patterns, each with a random text, and lists what costs much.

    python3 scripts/random_grammars.py SYNCAT COUNT SEED [--above SECONDS] [--keep FOLDER]

SYNCAT is the built program. COUNT grammars are made, from SEED: the same one makes the same. Their patterns have loops in one
another, counts, lookarounds, atomic groups and back references; their contexts push, set, pop, include and clear; their texts
have lines of up to 20000 letters, most of which the patterns read. Each run has the time, memory and stack of
`hostile_inputs.py`. A run that takes more than SECONDS of the processor, 2 where nothing is said, or 200 MB, that ends by a
signal, or that passes a limit of the process is listed, and with --keep its files are written to FOLDER. At the end the runs
are counted by what they answer; the status is 1 if one was listed.
"""

import argparse
import os
import random
import sys
from collections import Counter

from hostile_inputs import HEAD, run_on, write

MOST_MEMORY = 200
ATOMS = ["a", "b", "ab", "x", "[ab]", "[a-x]", "[^b]", ".", "\\w", "\\s", "\\b", "a?", "b?", "^", "$"]
LOOPS = ["*", "+", "*?", "+?", "?", "{2}", "{1,3}", "{0,20}", "{2,}", "{5,30}"]


def pattern(dice, depth, groups):
    """A random pattern; `groups` is a list of one number, how many groups were begun so far."""
    if depth == 0:
        return dice.choice(ATOMS)
    kind = dice.random()
    if kind < 0.3:
        return "".join(pattern(dice, depth - 1, groups) for _ in range(dice.randint(1, 3)))
    if kind < 0.6:
        inner = pattern(dice, depth - 1, groups)
        groups[0] += 1
        return f"({inner})" + dice.choice(LOOPS)
    if kind < 0.72:
        return f"(?:{pattern(dice, depth - 1, groups)}|{pattern(dice, depth - 1, groups)})" + dice.choice(LOOPS + [""])
    if kind < 0.82:
        return f"(?{dice.choice(['=', '!', '>'])}{pattern(dice, depth - 1, groups)})"
    if kind < 0.87:
        return f"(?<{dice.choice('=!')}{dice.choice(['a', 'b', 'ab|x', '[ab]', 'a{2}'])})"
    if kind < 0.94 and groups[0]:
        return f"\\{dice.randint(1, min(groups[0], 9))}" + dice.choice(["", "", "+", "?"])
    return dice.choice(ATOMS) + dice.choice(LOOPS)


def item(dice, names):
    """An item of a context."""
    if dice.random() < 0.15:
        return f"    - include: {dice.choice(names)}\n"
    text = pattern(dice, dice.randint(1, 5), [0]) + dice.choice(["", "", "b", "c", "y", "\\n"])
    rows = f"    - match: '{text}'\n      scope: {dice.choice(['word', 'word.a', 'other.b'])}\n"
    does = dice.random()
    if does < 0.25:
        rows += f"      {dice.choice(['push', 'set'])}: {dice.choice(names)}\n"
    elif does < 0.35:
        rows += "      pop: true\n"
    elif does < 0.45:
        rows += "      captures:\n        1: word.one\n"
    return rows


def grammar(dice):
    names = ["main", "one", "two"][: dice.randint(1, 3)]
    rows = []
    for name in names:
        rows.append(f"  {name}:\n")
        if dice.random() < 0.2:
            rows.append(f"    - clear_scopes: {dice.choice(['1', 'true'])}\n")
        rows += [item(dice, [n for n in names if n != name] or names) for _ in range(dice.randint(1, 4))]
    return HEAD + "contexts:\n" + "".join(rows)


def text(dice):
    lines = []
    for _ in range(dice.randint(1, 4)):
        most = dice.choice([10, 60, 300, 2000, 20000])
        part = "".join(dice.choice("aaabbx ") for _ in range(dice.randint(1, 12)))
        lines.append((part * (most // len(part) + 1))[:most] + dice.choice(["", "c", "y", " ."]))
    return "\n".join(lines) + "\n"


def run(syncat, source, shown):
    """What a run answers, its seconds and its most memory in MB."""
    code, said, _, spent, memory = run_on(source, shown, [syncat, "folder", "theme.json", "html", "text.t"])
    if code < 0:
        answer = f"signal {-code}"
    elif code == 0:
        answer = "page with a plain line" if "is shown plain" in said else "page"
    else:
        answer = said[:60]
    return answer, spent, memory


def main():
    words = argparse.ArgumentParser(usage=__doc__)
    words.add_argument("syncat")
    words.add_argument("count", type=int)
    words.add_argument("seed", type=int)
    words.add_argument("--above", type=float, default=2.0)
    words.add_argument("--keep")
    given = words.parse_args()
    syncat = os.path.abspath(given.syncat)
    answers, listed, longest = Counter(), 0, 0.0
    for number in range(given.count):
        dice = random.Random(given.seed * 1000003 + number)
        source, shown = grammar(dice), text(dice)
        answer, seconds, memory = run(syncat, source, shown)
        answers[answer] += 1
        longest = max(longest, seconds)
        if seconds > given.above or memory > MOST_MEMORY or answer.startswith("signal"):
            listed += 1
            print(f"{number}\t{answer}\t{seconds:.2f} s\t{memory:.0f} MB", flush=True)
            if given.keep:
                os.makedirs(given.keep, exist_ok=True)
                write(given.keep, str(number), source, shown)
    for answer, count in answers.most_common():
        print(f"{count}\t{answer}")
    print(f"at most {longest:.2f} s; {listed} listed")
    return 1 if listed else 0


if __name__ == "__main__":
    sys.exit(main())
