#!/usr/bin/env python3
"""Writes docs/CHECKS.md, which explains what `vulsangi check` finds, from the texts that the program has.

    python3 scripts/checks.py            writes it
    python3 scripts/checks.py --check    says whether it is up to date
"""
import re
import sys
from pathlib import Path

TOP = Path(__file__).resolve().parent.parent
RULES = TOP / "crates/vulsangi_grammar/src/rules.rt"
PAGE = TOP / "docs/CHECKS.md"
GRADES = {"Fault": "error", "Warning": "warning", "Note": "note"}

HEAD = """# What the doctor finds

`vulsangi check PATH..` looks through grammars and themes, and `vulsangi check --explain NUMBER` prints one of these
texts. An error means that a file isn't loaded, and the status is 1 then. A warning means that the grammar does something
else than it seems to say. A note tells of what may be meant. Lines and columns count from 1, columns in characters.

| Number | | What is found |
|---|---|---|
"""


def unquoted(text):
    """The text of a string as the source has it."""
    text = re.sub(r"\\\n\s*", "", text)
    return re.sub(r"\\(.)", lambda m: {"n": "\n", "t": "\t"}.get(m[1], m[1]), text)


def rules():
    """Each rule: its number, grade, title and text, in the order of the numbers."""
    shape = re.compile(
        r'Rule \{\s*number: "(V\d+)",\s*grade: Grade::(\w+),\s*title: "((?:[^"\\]|\\.)*)",\s*'
        r'text: "((?:[^"\\]|\\.|\\\n)*)",\s*\};', re.S)
    found = [(m[1], GRADES[m[2]], unquoted(m[3]), unquoted(m[4])) for m in shape.finditer(RULES.read_text())]
    if len(found) != RULES.read_text().count("number: \"V"):
        sys.exit("checks.py: a rule isn't read")
    return sorted(found)


def page():
    out = HEAD
    for number, grade, title, _ in rules():
        out += f"| [{number}](#{number.lower()}) | {grade} | {title} |\n"
    for number, _, title, text in rules():
        out += f"\n## {number}\n\n{title[0].upper()}{title[1:]}. {text}\n"
    return out


if __name__ == "__main__":
    if "--check" in sys.argv[1:]:
        if not PAGE.exists() or PAGE.read_text() != page():
            sys.exit("docs/CHECKS.md is stale: run scripts/checks.py")
        print(f"{len(rules())} findings are explained")
    else:
        PAGE.write_text(page())
