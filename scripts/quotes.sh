#!/bin/sh
# Compares what the documents quote with the files that the gate proves, runs or reads.
#
#   sh scripts/quotes.sh
#
# A fenced block in a language of the repository (rust, antt, yaml) stands in the file that is named in backticks above it, from
# which the program's line of crates.txt is quoted too; where the text there says "whole", or names nothing but the file, it is all of
# it. Ends with status 1, and names the lines, where one is another text.
set -eu

cd "$(dirname "$0")/.."
exec python3 - << 'END'
import pathlib
import re
import sys

FENCE = re.compile(r"^```(rust|antt|yaml)\n(.*?)^```$", re.M | re.S)
FILE = re.compile(r"`((?:crates|grammars|examples)/[^`\s]+\.\w[\w-]*)`")
LINES = pathlib.Path("crates.txt").read_text(encoding="utf-8").splitlines()
faults = []


def above(text, at):
    """The paragraphs above a block, up to the block or the heading before, and the last file that they name."""
    told = re.split(r"^```\w*$|^#+ .*$", text[:at], flags=re.M)[-1]
    return told, (FILE.findall(told) or [""])[-1]


def look(page):
    text = page.read_text(encoding="utf-8")
    for block in FENCE.finditer(text):
        told, name = above(text, block.start())
        line = text.count("\n", 0, block.start()) + 1
        if not name or not pathlib.Path(name).is_file():
            if page.name != "README.md":
                faults.append(f"{page}:{line}: no file is named that this is quoted from")
            continue
        whole = pathlib.Path(name).read_text(encoding="utf-8")
        is_whole = "whole" in told or told.strip() == f"`{name}`:"
        if whole != block[2] if is_whole else block[2] not in whole:
            faults.append(f"{page}:{line}: this is not the text of {name}")
    for line in re.findall(r"^    (syntect_\w+: .*)$", text, flags=re.M):
        if line not in LINES:
            faults.append(f"{page}: crates.txt has no line '{line}'")


for page in [pathlib.Path("README.md"), *sorted(pathlib.Path("docs").glob("*.md"))]:
    if page.name != "BELIEVED.md":
        look(page)
for fault in faults:
    print(f"quotes.sh: {fault}", file=sys.stderr)
sys.exit(1 if faults else 0)
END
