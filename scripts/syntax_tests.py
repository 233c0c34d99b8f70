#!/usr/bin/env python3
"""Runs the tests of the grammars in grammars/.

    python3 scripts/syntax_tests.py PROGRAM [TEST..]

PROGRAM is syntect_bench, which prints the scopes of a text. A test, one of grammars/tests without the word, has Sublime
Text's form: its first line is a comment with SYNTAX TEST "FILE", and a comment's token and `^^^ SELECTOR` on a line of their
own say which scopes the columns above them have, in the last line that is no such line; `<- SELECTOR` speaks of the column
of the token itself, `<--` of that one and the next. Each place that has other scopes is named, and the status is 1 then.
"""
import pathlib
import re
import subprocess
import sys

GRAMMARS = pathlib.Path(__file__).resolve().parent.parent / "grammars"
HEADER = re.compile(r'\s*(\S+)\s+SYNTAX TEST "([^"]+)"')
RUN = re.compile(r"(\d+)\.\.(\d+) ?(.*)")


def scopes_of(program, test):
    """Of each line its runs of bytes, each with the scopes there; None where the program refuses."""
    answer = subprocess.run([program, "scopes", str(GRAMMARS), str(test)], capture_output=True, text=True, check=False)
    if answer.returncode:
        print(answer.stderr.strip())
        return None
    lines = []
    for line in answer.stdout.splitlines():
        if run := RUN.fullmatch(line):
            lines[-1].append((int(run[1]), int(run[2]), run[3].split()))
        elif re.fullmatch(r"L\d+ \d+", line):
            lines.append([])
    return lines


def fits_path(path, stack):
    """Each of a path's scopes stands in the stack, in their order: as it is, or as the front of a longer one."""
    left = iter(stack)
    return all(any(it == scope or it.startswith(f"{scope}.") for it in left) for scope in path.split())


def fits(selector, stack):
    for union in re.split(r"[,|]", selector):
        path, *exclusions = re.split(r"(?:^|\s)-\s*", union.strip())
        if fits_path(path, stack) and not any(fits_path(it, stack) for it in exclusions):
            return True
    return False


def assertion_of(line, token):
    """The first column, how many there are, and the selector of a line that says what the line above it has."""
    found = re.fullmatch(rf"(\s*){re.escape(token)}(\s*)(\^+|<-+)\s+(.*?)\s*(?:\*/|-->)?\s*", line)
    if not found:
        return None
    before, after, mark, selector = found.groups()
    if mark[0] == "<":
        return len(before), len(mark) - 1, selector
    return len(before) + len(token) + len(after), len(mark), selector


def faults_of(test, lines, scopes, token):
    """The columns whose scopes are others than a line says, and how many columns were looked at."""
    faults, looked, above = [], 0, 0
    for number, line in enumerate(lines):
        said = assertion_of(line, token) if number else None
        if not said:
            above = number
            continue
        first, count, selector = said
        for column in range(first, first + count):
            looked += 1
            place = len(lines[above][:column].encode())
            stack = next((it for begin, end, it in scopes[above] if begin <= place < end), []) if above < len(scopes) else []
            if not fits(selector, stack):
                faults.append(f"{test.name}:{number + 1}: column {column + 1} of line {above + 1}: {selector} is wanted, "
                              f"and there is {' '.join(stack) or 'nothing'}")
    return faults, looked


def run(program, test):
    """Prints a test's faults, and answers whether there are none."""
    lines = test.read_text(encoding="utf-8").split("\n")
    header = HEADER.match(lines[0])
    if not header or not (GRAMMARS / header[2]).is_file():
        print(f"{test.name}: no first line with SYNTAX TEST and the name of a grammar")
        return False
    scopes = scopes_of(program, test)
    if scopes is None:
        return False
    faults, looked = faults_of(test, lines, scopes, header[1])
    print("\n".join([*faults, f"{test.name}: {looked} columns, {len(faults)} of them wrong"]))
    return not faults and looked > 0


def main():
    if len(sys.argv) < 2:
        print(__doc__, file=sys.stderr)
        return 2
    tests = [pathlib.Path(it) for it in sys.argv[2:]] or sorted((GRAMMARS / "tests").iterdir())
    return 0 if all([run(sys.argv[1], it) for it in tests]) else 1


if __name__ == "__main__":
    sys.exit(main())
