#!/usr/bin/env python3
"""Runs syncat over small grammars of strangers, each with one text, that are made to hold a reader up.

    python3 scripts/hostile_inputs.py SYNCAT [--crate ORACLE] [--write FOLDER] [NAME..]

A text has far on what the pattern's matches need, so that this alone doesn't refuse it. SYNCAT is the built program; with
names only those inputs are run. Each run has 20 seconds of the processor, 1 GB and 1 MB of stack. It prints a row of a table
for each: its name, what the run answers, the seconds of the processor and the most memory in MB, of which some 12 are this
script's own; the status is 1 if a run ends by a signal, or past its time or memory. With --crate the same inputs are given to
a program on syntect 5.3.0 that answers `html FOLDER THEME FILE`, and its row has the same. With --write nothing is run: each
input is written as files, NAME.sublime-syntax and NAME.t.
"""

import argparse
import os
import re
import resource
import subprocess
import sys
import tempfile

SECONDS = 20
MEMORY = 1 << 30
STACK = 1 << 20
THEME = '{"settings":[{"settings":{"foreground":"#010101"}},{"scope":"word","settings":{"foreground":"#030303"}}]}'
HEAD = "name: T\nscope: source.t\nfile_extensions: [t]\n"


def contexts(text, variables=""):
    return HEAD + variables + "contexts:\n" + text


def cost(pattern, text, more=""):
    quoted = pattern.replace("'", "''")
    return contexts(f"  main:\n    - match: '{quoted}'\n      scope: word\n{more}"), text


def nested(opening, inner, closing, count):
    return opening * count + inner + closing * count


def refs_in_turn(count):
    """Each group is one of two letters, and each is asked for again after a text that doesn't have them."""
    groups = "".join("(a|ab)" for _ in range(count))
    return cost(groups + ".*" + "".join(f"\\{n}" for n in range(1, count + 1)) + "!", "ab" * 40 + "c!\n")


def includes_that_fan_out(levels, width):
    rows = ["  main:\n    - include: c0\n"]
    rows += [f"  c{n}:\n" + f"    - include: c{n + 1}\n" * width for n in range(levels)]
    return contexts("".join(rows) + f"  c{levels}:\n    - match: x\n      scope: word\n"), "axb\n" * 20


def variables_that_double(count, loop=""):
    rows = ["variables:\n  v0: a\n"] + [f"  v{n}: '(?:{{{{v{n - 1}}}}}{{{{v{n - 1}}}}}){loop}'\n" for n in range(1, count)]
    return contexts(f"  main:\n    - match: '{{{{v{count - 1}}}}}b'\n      scope: word\n", "".join(rows)), "a" * 4000 + "cb\n"


def popped_by_ref():
    """A context whose end names what began it, entered at each place."""
    text = "  main:\n    - match: '(a+)'\n      push:\n        - match: '(?:a|b)*\\1c'\n          pop: true\n        - match: b\n          push: main\n"
    return contexts(text), "ab" * 3000 + "dc\n"


def put_in(count, letters, line):
    """A context of so many patterns that name what opened it, which has so many letters, and a line in it."""
    rows = "".join(f"        - match: '\\1z{n}'\n          pop: true\n" for n in range(count))
    text = "  main:\n    - match: '(x+)y'\n      push:\n" + rows + "        - match: a\n          scope: word\n"
    return contexts(text), "x" * letters + "y\n" + line


def many(patterns, line):
    rows = "".join(f"    - match: '{pattern}'\n      scope: word\n" for pattern in patterns)
    return contexts("  main:\n" + rows), line


def one_that_names_its_opening(count, line):
    """A context of so many patterns of which one names what opened it."""
    rows = "".join(f"        - match: y{n}\n" for n in range(count))
    return contexts("  main:\n    - match: (a)\n      push:\n        - match: '\\1z'\n          pop: true\n        - match: x\n          scope: word\n" + rows), line


def pushed_scopes(count, line):
    scopes = " ".join(f"x{n}" for n in range(count))
    return contexts(f"  main:\n    - match: a\n      push:\n        - meta_scope: {scopes}\n        - match: b\n          pop: true\n"), line


def first_lines(pattern, line):
    """Syntaxes that are looked for by a first line, since the text's extension tells none."""
    return HEAD.replace("file_extensions: [t]", f"first_line_match: '{pattern}'") + "contexts:\n  main:\n    - match: a\n      scope: word\n", line


def sets_that_leave_more_open(lines):
    text = "  main:\n    - match: a\n      set: [main, main]\n    - match: b\n      scope: word\n"
    return contexts(text), lines


def prototypes_at_each_push():
    text = (
        "  main:\n    - match: a\n      push: main\n      with_prototype:\n        - match: '(b+)+c'\n          scope: word\n"
    )
    return contexts(text), "a" * 120 + "b" * 4000 + "dc\n"


def hundred_levels_of_captures():
    rows = "".join(f"        {n}: word.c{n}\n" for n in range(1, 101))
    return contexts(f"  main:\n    - match: '{nested('(', 'a+', ')', 100)}'\n      captures:\n{rows}"), "a b " * 3000 + "\n"


def captures_in_a_loop():
    rows = "".join(f"        {n}: word.c{n}\n" for n in range(1, 51))
    return contexts(f"  main:\n    - match: '(?:{nested('(', 'a', ')', 50)})+b'\n      captures:\n{rows}"), "a" * 5000 + "cb\n"


def many_patterns(count):
    rows = "".join(f"    - match: '(?:x|y)*z{n}'\n      scope: word\n" for n in range(count))
    return contexts("  main:\n" + rows), "xy" * 200 + " z0123456789\n"


def pushes_round():
    """Two contexts that set each other without reading anything, at each place."""
    return (
        contexts(
            "  main:\n    - match: (?=x)\n      push: two\n  two:\n    - match: (?=x)\n      set: three\n"
            "  three:\n    - match: (?=x)\n      pop: true\n    - match: x\n"
        ),
        "x" * 20000 + "\n",
    )


def push_and_never_pop():
    return contexts("  main:\n    - meta_scope: word.a\n    - match: x\n      push: [main, main, main]\n"), "x" * 20000 + "\n"


def long_scopes():
    scope = " ".join(f"a{n}.b.c.d.e.f.g" for n in range(300))
    return contexts(f"  main:\n    - match: x\n      scope: {scope}\n"), "x." * 20000 + "\n"


def clear_scopes_round():
    text = "  main:\n    - clear_scopes: true\n    - meta_scope: word.b\n    - match: x\n      push: main\n    - match: y\n      pop: true\n"
    return contexts(text), "x" * 3000 + "y" * 2990 + "\n"


INPUTS = {
    # loops in loops
    "loop in a loop, then a letter": lambda: cost("(a+)+b", "a" * 20000 + ".\n"),
    "loop in a loop, a late end": lambda: cost("(a+)+c", "a" * 20000 + "b" * 20 + "c\n"),
    "branches that overlap in a loop": lambda: cost("(a|aa|aaa)+b", "a" * 20000 + "cb\n"),
    "empty turns of a loop": lambda: cost("(a*)*b", "a" * 20000 + "cb\n"),
    "200 loops in one another": lambda: cost(nested("(?:", "a", ")*", 199) + "b", "a" * 2000 + "cb\n"),
    "199 loops of a sequence in one another": lambda: cost(nested("(", "a", "b?)*", 199) + "c", "a" * 60 + "dc\n"),
    "twenty loops side by side": lambda: cost("a*" * 20 + "b", "a" * 3000 + "cb\n"),
    "any text twelve times": lambda: cost("(.*?,){12}x", "a," * 200000 + "bx\n"),
    "any text three times": lambda: cost(".*.*.*xy", "a" * 4000 + "yx\n"),
    # counts
    "counts in counts": lambda: cost("((a{1,30}){1,30}){1,30}b", "a" * 60 + "cb\n"),
    "counts in counts, 10000 letters": lambda: cost("((a{1,30}){1,30}){1,30}b", "a" * 10000 + "cb\n"),
    "a count of 1000": lambda: cost("(?:ab?){1000}c", "a" * 20000 + "dc\n"),
    "a count of 1000 in a loop": lambda: cost("(?:[a-z]{1000}|[a-y]{999})+!", "a" * 20000 + "?!\n"),
    "counts that may be empty": lambda: cost("((a?){50}){50}b", "a" * 2000 + "cb\n"),
    # back references
    "back references in turn": lambda: refs_in_turn(9),
    "a back reference in a loop": lambda: cost("(a+)(?:\\1)+b", "a" * 5000 + "cb\n"),
    "a back reference to what a loop in a loop took": lambda: cost("((a+)+)\\1b", "a" * 40 + "cb\n"),
    "back references and three loops": lambda: cost("(a*)(a*)(a*)\\1\\2\\3b", "a" * 400 + "cb\n"),
    "a back reference within its loop": lambda: cost("(?:(a|b|ab)\\1?)+c", "ab" * 40 + "dc\n"),
    "a pop that names what pushed": popped_by_ref,
    "a way back of 1 MB": lambda: cost("((a|b)\\2?)*c", "ab" * 500000 + "d c\n"),
    "a way back of 10 MB": lambda: cost("((a|b)\\2?)*c", "ab" * 5000000 + "d c\n"),
    "a way back of 1 MB through groups in groups": lambda: cost("((((a|b)\\4?)*)x?)*c", "ab" * 500000 + "d c\n"),
    "a way back of 1 MB without back references": lambda: cost("(?:a|b|ab)*c", "ab" * 500000 + "d c\n"),
    "a short text put in by 17 patterns in each turn": lambda: put_in(17, 5000, "a" * 4000 + "\n"),
    "a text of 500 KB put in by 17 patterns": lambda: put_in(17, 500000, "a" * 20 + "\n"),
    "a text of 900 KB put in once, and kept": lambda: put_in(1, 900000, "a" * 100000 + "\n"),
    # many patterns, and what a turn makes
    "a lookbehind in a count": lambda: cost("(?:(?<=a)a|(?:aa)+){999}(?:b|(?:aa)+b)", "a" * 300000 + "cb\n"),
    "5000 patterns that all fail": lambda: many([f"[a-z]*Q{n % 10}" for n in range(5000)], "a," * 40000 + "\n"),
    "10000 patterns that need what stands far off": lambda: many(
        [f"a[a-z]*{n}z" for n in range(10000)], "a," * 3000 + " " + "".join(f"{n}z" for n in range(10000)) + "\n"
    ),
    "50000 patterns, one with a text put in, 500 turns": lambda: one_that_names_its_opening(50000, "a" + "x" * 500 + "\n"),
    "20000 scopes pushed 1000 times": lambda: pushed_scopes(20000, "ab" * 1000 + "\n"),
    # first lines
    "a first line that asks for a loop's group": lambda: first_lines("((a+)+)\\1b", "a" * 40 + "cb\n"),
    "a first line of a lookahead in a loop": lambda: first_lines("((?=(a+)+c)a)+c", "a" * 10000 + "bc\n"),
    "a first line of counts in counts": lambda: first_lines("((a{1,30}){1,30}){1,30}b", "a" * 10000 + "cb\n"),
    # lookarounds
    "a lookahead in a loop": lambda: cost("((?=(a+)+c)a)+c", "a" * 40 + "bc\n"),
    "a lookahead in a loop, 10000 letters": lambda: cost("((?=(a+)+c)a)+c", "a" * 10000 + "bc\n"),
    "lookaheads in one another with loops": lambda: cost(nested("(?:(?=", "a*b", ")a)*", 20) + "c", "a" * 2000 + "bdc\n"),
    "a negative lookahead in a loop": lambda: cost("(?:(?!.*(?:ab|ba)+c).)*!#", "ab" * 2000 + "dc#!\n"),
    "a lookahead with a group that is asked for": lambda: cost("(?=(a+))(?:a\\1?)+b", "a" * 200 + "cb\n"),
    "a lookbehind without a bound": lambda: cost("(?<=x.*)y", "a" * 20000 + "y" * 20000 + "\n"),
    "a lookbehind of 100 lengths": lambda: cost("(?<=" + "|".join("a" * n + "b" for n in range(1, 100)) + ")c", "a" * 100000 + "c" * 1000 + "\n"),
    "lookbehinds in one another": lambda: cost(nested("(?<=a", "a", ")", 60) + "b", "a" * 50000 + "cb\n"),
    "a lookbehind in a loop": lambda: cost("(?:(?<=(?:a|aa)a)a|a)+b", "a" * 5000 + "cb\n"),
    "rows of an atomic group of 200 words": lambda: cost(
        "(?:a+)+(?>" + "|".join(f"x{n}y" for n in range(200)) + ")b", "a" * 14000 + " x7yc x8yb\n"
    ),
    "an atomic group in a loop": lambda: cost("(?:(?>a+b?)|a)+c", "a" * 5000 + "dc\n"),
    # grammars
    "includes that fan out, 4^9": lambda: includes_that_fan_out(9, 4),
    "variables that double, 2^14 letters": lambda: variables_that_double(15),
    "variables that double, each a loop": lambda: variables_that_double(9, "+"),
    "prototypes at each push": prototypes_at_each_push,
    "100 levels of captures": hundred_levels_of_captures,
    "50 captures in a loop": captures_in_a_loop,
    "2000 patterns that fail late": lambda: many_patterns(2000),
    "contexts that go round at each place": pushes_round,
    "three pushes at each place": push_and_never_pop,
    "a scope of 2100 atoms": long_scopes,
    "scopes cleared at each push": clear_scopes_round,
    "sets that leave more open, 100 lines": lambda: sets_that_leave_more_open(("a" * 1000 + "\n") * 100),
    "1 MB with the most open contexts": lambda: sets_that_leave_more_open("a" * 190 + "\n" + "b" * 1000000 + "\n"),
    "a pattern of 2.7 MB": lambda: (contexts(f"  main:\n    - match: '{'[a-c]?' * 450000}d'\n"), "abab\n"),
    "three patterns of 2.7 MB": lambda: (contexts("  main:\n" + "".join(f"    - match: '{'[a-c]?' * 450000}{c}'\n" for c in "def")), "abab\n"),
    "a pattern of 2 MB, tried at each place": lambda: cost("(?:ab(?#" + "-" * 2000000 + ")|ac)d", "ab" * 100000 + "\n"),
    # lines and texts
    "a line of 1 MB of spaces, ended by a word": lambda: cost("\\s+$|\\s+x", " " * 1000000 + "y\n"),
    "a line of 1 MB, a quote that isn't closed": lambda: cost('"(?:[^"\\\\]|\\\\.)*"', '"' + "a\\" * 500000 + "\n"),
    "a line of 1 MB, any text and a word": lambda: cost("[\\w.+-]+@", "a" * 1000000 + " @\n"),
    "a line of 1 MB, open brackets": lambda: cost("\\((?:[^()]|\\([^()]*\\))*\\)", "(" * 1000000 + " )\n"),
    "a line of 1 MB of letters of four bytes": lambda: cost("(?i)[^a]+?[\U00010400-\U0001044f]b", "\U0001f642" * 250000 + "ab\n"),
}


def limited():
    resource.setrlimit(resource.RLIMIT_STACK, (STACK, STACK))
    resource.setrlimit(resource.RLIMIT_CORE, (0, 0))
    resource.setrlimit(resource.RLIMIT_AS, (MEMORY, MEMORY))
    resource.setrlimit(resource.RLIMIT_CPU, (SECONDS, SECONDS))


def write(folder, name, grammar, text):
    with open(os.path.join(folder, name + ".sublime-syntax"), "w") as out:
        out.write(grammar)
    with open(os.path.join(folder, name + ".t"), "w") as out:
        out.write(text)


def run_on(grammar, text, words):
    """How a run over a grammar and a text ends, what it tells, the bytes that it writes, its seconds and its most memory in MB."""
    with tempfile.TemporaryDirectory() as room:
        folder = os.path.join(room, "folder")
        os.mkdir(folder)
        write(folder, "a", grammar, text)
        os.rename(os.path.join(folder, "a.t"), os.path.join(room, "text.t"))
        with open(os.path.join(room, "theme.json"), "w") as out:
            out.write(THEME)
        with open(os.path.join(room, "out"), "wb") as out, open(os.path.join(room, "told"), "wb") as told:
            child = subprocess.Popen(words, cwd=room, stdout=out, stderr=told, preexec_fn=limited)
            _, status, used = os.wait4(child.pid, 0)
        child.returncode = code = os.waitstatus_to_exitcode(status)
        with open(os.path.join(room, "told"), errors="replace") as told:
            said = told.read().strip().replace("\n", " ")[:120]
        size = os.path.getsize(os.path.join(room, "out"))
    return code, said, size, used.ru_utime + used.ru_stime, used.ru_maxrss / 1024


def run(name, words):
    """What a run answers, whether it ends by itself, its seconds and its most memory in MB."""
    code, said, size, spent, memory = run_on(*INPUTS[name](), words)
    plain = ", a line plain" if "is shown plain" in said else ""
    answer = f"page of {size} bytes{plain}" if code == 0 else "past its time" if spent > SECONDS - 0.5 else f"{code} {said}".strip()
    return answer, code in (0, 1) and not re.search("memory", said), spent, memory


def main():
    words = argparse.ArgumentParser(usage=__doc__)
    words.add_argument("SYNCAT")
    words.add_argument("--crate")
    words.add_argument("--write")
    words.add_argument("NAME", nargs="*")
    words = words.parse_args()
    names = words.NAME or list(INPUTS)
    if words.write:
        for name in names:
            write(words.write, name.replace(" ", "-").replace(",", "").replace("^", "-"), *INPUTS[name]())
        return
    print("| Input | Answer | Seconds | MB |" + (" Crate | Seconds | MB |" if words.crate else ""), flush=True)
    print("|---|---|---|---|" + ("---|---|---|" if words.crate else ""), flush=True)
    good = True
    for name in names:
        answer, held, spent, memory = run(name, [os.path.abspath(words.SYNCAT), "folder", "theme.json", "html", "text.t"])
        good &= held
        row = f"| {name} | {answer} | {spent:.2f} | {memory:.0f} |"
        if words.crate:
            told, _, spent, memory = run(name, [os.path.abspath(words.crate), "html", "folder", "theme.json", "text.t"])
            row += f" {told} | {spent:.2f} | {memory:.0f} |"
        print(row, flush=True)
    sys.exit(0 if good else 1)


if __name__ == "__main__":
    main()
