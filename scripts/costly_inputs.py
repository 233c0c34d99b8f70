#!/usr/bin/env python3
"""Runs syncat over grammars and texts that are made to cost, and prints the time and the memory that each takes.

    python3 scripts/costly_inputs.py SYNCAT [NAME..]

SYNCAT is the built program; with names only those inputs are run. Each run has 1 MB of stack and 120 seconds; some small
grammars are to be read, and a line of theirs highlighted, within a second and 200 MB. It prints a row of a table for each: its
name, the status with the line on standard error, the seconds and the most memory in MB; the status is 1 if a run ends by a
signal, or past its time or memory.
"""

import os
import resource
import subprocess
import sys
import tempfile
import time

SECONDS = 120
STACK = 1 << 20
THEME = '{"settings":[{"settings":{"foreground":"#010101"}},{"scope":"word","settings":{"foreground":"#030303"}}]}'
HEAD = "name: T\nscope: source.t\nfile_extensions: [t]\n"


def contexts(text, variables=""):
    return HEAD + variables + "contexts:\n" + text


def main_of(pattern):
    return contexts(f"  main:\n    - match: '{pattern}'\n      scope: word\n")


def fan_out():
    """Each context includes the next one twice."""
    rows = ["  main:\n    - include: c0\n"]
    rows += [f"  c{n}:\n    - include: c{n + 1}\n    - include: c{n + 1}\n" for n in range(16)]
    return contexts("".join(rows) + "  c16:\n    - match: x\n      scope: word\n"), "axb\n" * 20


def doubling():
    """Each variable has the one before it twice."""
    rows = ["variables:\n  v0: a\n"] + [f"  v{n}: '{{{{v{n - 1}}}}}{{{{v{n - 1}}}}}'\n" for n in range(1, 16)]
    return contexts("  main:\n    - match: '{{v15}}'\n      scope: word\n", "".join(rows)), "aaaa\n"


def naming_each_other():
    """Each variable names all others."""
    names = [f"v{n}" for n in range(40)]
    rows = ["variables:\n"] + [f"  {a}: '" + "".join(f"{{{{{b}}}}}" for b in names if b != a) + "'\n" for a in names]
    return contexts("  main:\n    - match: '{{v0}}x'\n      scope: word\n", "".join(rows)), "x\n"


def a_long_pattern():
    """A pattern of 1 MB with a variable in the midst."""
    half = "a" * 500000
    return contexts(f"  main:\n    - match: '{half}{{{{v}}}}{half}'\n      scope: word\n", "variables:\n  v: b\n"), "a\n"


def includes_in_a_row(count):
    """Each context includes the next one."""
    rows = ["  main:\n    - include: c0\n"] + [f"  c{n}:\n    - include: c{n + 1}\n" for n in range(count)]
    return contexts("".join(rows) + f"  c{count}:\n    - match: x\n      scope: word\n"), "axb\n"


def atoms(count):
    """Scopes of many atoms that differ in their ends."""
    rows = [f"    - match: a{n}\n      scope: " + ".".join(f"a{n:05}{k}" for k in range(7)) + "\n" for n in range(count)]
    return contexts("  main:\n" + "".join(rows)), "a1\n"


def pushes_in_one_another(depth):
    """Contexts that stand where a push names one."""
    rows = ["  main:\n"]
    for n in range(depth):
        rows += ["  " * (2 * n + 2) + "- match: x\n", "  " * (2 * n + 3) + "push:\n"]
    return contexts("".join(rows) + "  " * (2 * depth + 2) + "- match: y\n"), "xxy\n"


def nested_block(depth):
    """Maps in one another, a line each."""
    return HEAD + "contexts: {main: []}\n" + "".join(" " * n + "x:\n" for n in range(depth)) + " " * depth + "y\n", "a\n"


def nested_json(name, depth):
    """A file of JSON in the folder, or the theme, of lists in one another."""
    return contexts("  main: []\n"), "a\n", {name: "[" * depth + "]" * depth}


def sets_go_round():
    return (
        contexts("  main:\n    - match: (?=x)\n      set: two\n  two:\n    - match: (?=x)\n      set: main\n"),
        "x" * 200 + "\n",
    )


def prototypes_go_round():
    """A context that pushes itself with a prototype, as often as that has an effect."""
    text = "  main:\n    - match: x\n      push: main\n      with_prototype:\n        - match: y\n          scope: word\n"
    return contexts(text), "x" * 120 + "y" * 2000 + "\n"


def captures():
    """A pattern with many captures; two hundred groups can stand in one another, and more stand side by side."""
    count = 100000
    rows = "".join(f"        {n}: a\n" for n in range(1, count + 1))
    return contexts(f"  main:\n    - match: '{'(a)' * count}'\n      captures:\n{rows}"), "a" * count + "\n"


def many_contexts():
    rows = ["  main:\n    - match: x\n      push: c0\n"]
    rows += [f"  c{n}:\n    - match: x\n      set: c{n + 1}\n" for n in range(100000)]
    return contexts("".join(rows) + "  c100000:\n    - match: x\n      pop: true\n"), "x" * 100 + "\n"


def nested_flow(depth):
    return HEAD + "contexts: {main: []}\nx: " + "[" * depth + "]" * depth + "\n", "a\n"


def nested_maps(name, depth):
    """A file of JSON in the folder, or the theme, of maps in one another."""
    return contexts("  main: []\n"), "a\n", {name: '{"a":' * depth + "1" + "}" * depth}


def deep_theme(depth):
    """A theme whose first item holds maps in one another under a key of its own."""
    return contexts("  main: []\n"), "a\n", {"theme.tmTheme": '{"settings":[{"settings":{},"x":' + '{"a":' * depth + "1" + "}" * depth + "}]}"}


def selector(text):
    """A theme of one rule with this selector."""
    theme = '{"settings":[{"settings":{}},{"scope":"' + text + '","settings":{"foreground":"#030303"}}]}'
    return main_of("a"), "a\n", {"theme.tmTheme": theme}


def flow_maps(depth):
    return HEAD + "contexts: {main: []}\nx: " + "{a: " * depth + "1" + "}" * depth + "\n", "a\n"


def lists_on_a_line(depth):
    """Lists in one another whose marks stand on one line."""
    return HEAD + "contexts: {main: []}\nx:\n  " + "- " * depth + "y\n", "a\n"


def variables_in_a_row(count):
    """Each variable is the one before it."""
    rows = ["variables:\n  v0: a\n"] + [f"  v{n}: '{{{{v{n - 1}}}}}'\n" for n in range(1, count)]
    return contexts(f"  main:\n    - match: '{{{{v{count - 1}}}}}'\n      scope: word\n", "".join(rows)), "a\n"


def open_contexts(count):
    """A context that pushes itself at each place."""
    return contexts("  main:\n    - meta_scope: word\n    - match: x\n      push: main\n"), "x" * count + "\n"


def cost(pattern, text):
    return main_of(pattern), text


# Small grammars that a reader of strangers' grammars must not be held up by.
SMALL = {
    "includes that fan out, 2^16 entries",
    "includes in a row, 10000",
    "a pattern of 1 MB with a variable",
    "a lookbehind at each of 100000 places",
    "a lookbehind of 33 branches at each of 100000 places",
    "scopes of 65000 atoms",
}

INPUTS = {
    "includes in a row, 10000": lambda: includes_in_a_row(10000),
    "includes in a row, 100000": lambda: includes_in_a_row(100000),
    "a pattern of 1 MB with a variable": a_long_pattern,
    "a lookbehind at each of 100000 places": lambda: cost("(?<=ab?)x", "x" * 100000 + "\n"),
    "a lookbehind of 33 branches at each of 100000 places": lambda: cost(
        "(?<=" + "|".join("ab" + "c" * n for n in range(33)) + ")x", "x" * 100000 + "\n"
    ),
    "scopes of 65000 atoms": lambda: atoms(9285),
    "pushes 45 deep in one another": lambda: pushes_in_one_another(45),
    "maps 99 deep, a line each": lambda: nested_block(99),
    "maps 5000 deep, a line each": lambda: nested_block(5000),
    "classes 200 deep": lambda: cost("[" * 200 + "a" + "]" * 200, "a\n"),
    "classes 100000 deep": lambda: cost("[" * 100000 + "a" + "]" * 100000, "a\n"),
    "a theme of lists 100000 deep": lambda: nested_json("theme.tmTheme", 100000),
    "metadata of lists 100000 deep": lambda: nested_json("folder/a.tmPreferences", 100000),
    "includes that fan out, 2^16 entries": fan_out,
    "variables that double, 2^15 characters": doubling,
    "40 variables that name each other": naming_each_other,
    "sets that go round, 200 places": sets_go_round,
    "99 prototypes on 2000 places": prototypes_go_round,
    "a pattern of 100000 groups, each captured": captures,
    "100000 contexts": many_contexts,
    "lists nested 99 deep": lambda: nested_flow(99),
    "lists nested 100000 deep": lambda: nested_flow(100000),
    "200 groups in one another": lambda: cost("(" * 200 + "a" + ")" * 200, "a\n"),
    "100000 groups in one another": lambda: cost("(" * 100000 + "a" + ")" * 100000, "a\n"),
    "200 lookaheads in one another": lambda: cost("(?=" * 200 + "a" + ")" * 200, "a\n"),
    "100000 lookaheads in one another": lambda: cost("(?=" * 100000 + "a" + ")" * 100000, "a\n"),
    "100 lookbehinds in one another": lambda: cost("(?<=" * 100 + "a" + ")" * 100 + "b", "ab\n"),
    "12 loops in one another on 60 places": lambda: cost("(" * 12 + "a" + ")*" * 12 + "b", "a" * 60 + "\n"),
    "16 loops in one another on 60 places": lambda: cost("(" * 16 + "a" + ")*" * 16 + "b", "a" * 60 + "\n"),
    "16 loops of one turn at least on 60 places": lambda: cost("(" * 16 + "a" + ")+" * 16 + "b", "a" * 60 + "\n"),
    "199 loops in one another on one place": lambda: cost("(" * 199 + "a" + ")*" * 199 + "b", "a\n"),
    "199 loops in one another on 60 places": lambda: cost("(" * 199 + "a" + ")*" * 199 + "b", "a" * 60 + "\n"),
    "100 loops of a sequence on 60 places": lambda: cost("(" * 100 + "a" + "b?)*" * 100 + "c", "a" * 60 + "\n"),
    "a row of 36000 cells by a plan": lambda: cost("(?:a+)+b|a+" + "$" * 18000, "a" * 40 + "\n"),
    "100000 branches": lambda: cost("|".join(f"a{n}" for n in range(100000)), "a99999\n"),
    "a selector of 10000 scopes": lambda: selector("a " * 10000),
    "a selector of 10000 exclusions": lambda: selector("source" + " - b" * 10000),
    "10000 selectors": lambda: selector("a, " * 10000 + "source"),
    "a theme with maps 100 deep": lambda: deep_theme(100),
    "a theme of maps 100000 deep": lambda: nested_maps("theme.tmTheme", 100000),
    "metadata of maps 100000 deep": lambda: nested_maps("folder/a.tmPreferences", 100000),
    "maps nested 99 deep": lambda: flow_maps(99),
    "maps nested 100000 deep": lambda: flow_maps(100000),
    "lists 99 deep on a line": lambda: lists_on_a_line(99),
    "lists 100000 deep on a line": lambda: lists_on_a_line(100000),
    "variables in a row, 10000": lambda: variables_in_a_row(10000),
    "2000 contexts open": lambda: open_contexts(2000),
    "a loop in a loop, (a*)*b on 20 places": lambda: cost("(a*)*b", "a" * 20 + "\n"),
    "a lookbehind over a line of 10000 bytes": lambda: cost("(?<=x.*)y", "a" * 10000 + "\n"),
    "a line of 10 MB, a word": lambda: cost("\\w+", "a" * 10000000 + "\n"),
    "a line of 1 MB, words": lambda: cost("\\w+", "ab " * 333333 + "\n"),
    "a line of 10 MB, (a|b)*": lambda: cost("(a|b)*", "a" * 10000000 + "\n"),
    "100000 lines": lambda: cost("\\w+", "ab cd\n" * 100000),
}


def limited():
    resource.setrlimit(resource.RLIMIT_STACK, (STACK, STACK))
    resource.setrlimit(resource.RLIMIT_CORE, (0, 0))


def run(syncat, name):
    """Whether a run ends by itself; prints its row."""
    grammar, text, *others = INPUTS[name]()
    files = {"folder/a.sublime-syntax": grammar, "theme.tmTheme": THEME, "text.t": text}
    files.update(*others)
    with tempfile.TemporaryDirectory() as folder:
        os.mkdir(os.path.join(folder, "folder"))
        for file, data in files.items():
            with open(os.path.join(folder, file), "w") as out:
                out.write(data)
        begin = time.monotonic()
        with open(os.path.join(folder, "out"), "wb") as out, open(os.path.join(folder, "err"), "wb") as err:
            words = [syncat, "folder", "theme.tmTheme", "html", "text.t"]
            child = subprocess.Popen(words, cwd=folder, stdout=out, stderr=err, preexec_fn=limited)
            status, used = None, None
            while time.monotonic() - begin < SECONDS and status is None:
                pid, status_word, usage = os.wait4(child.pid, os.WNOHANG)
                if pid:
                    status, used = os.waitstatus_to_exitcode(status_word), usage
                else:
                    time.sleep(0.002)
            if status is None:
                child.kill()
                _, _, used = os.wait4(child.pid, 0)
        spent = time.monotonic() - begin
        with open(os.path.join(folder, "err")) as err:
            told = err.read().strip()
        size = os.path.getsize(os.path.join(folder, "out"))
    answer = f"page of {size} bytes" if status == 0 else "past its time" if status is None else f"{status} {told}".strip()
    memory = used.ru_maxrss / 1024
    held = name not in SMALL or (spent <= 1 and memory <= 200)
    print(f"| {name} | {answer}{'' if held else ', past what it may take'} | {spent:.2f} | {memory:.0f} |", flush=True)
    return status in (0, 1) and held


def main():
    if len(sys.argv) < 2:
        sys.exit(__doc__)
    print("| Input | Answer | Seconds | MB |\n|---|---|---|---|", flush=True)
    good = [run(os.path.abspath(sys.argv[1]), name) for name in sys.argv[2:] or INPUTS]
    sys.exit(0 if all(good) else 1)


main()
