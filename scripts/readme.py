#!/usr/bin/env python3
"""Tries what README.md says, as far as that takes seconds; scripts/links.py looks for links, files and names.

    python3 scripts/readme.py

Commands name words and files that are there; code that is quoted, here and in docs/, stands in its file; README's figures are
those of the tables and pages that they come from; and docs/edits.tsv is up to date. Each line that is no longer so is named, and
the status is 1 then.
"""
import pathlib
import re
import shutil
import subprocess
import sys

TOP = pathlib.Path(__file__).resolve().parent.parent
README = "README.md"
NUMBERS = dict(zip("one two three four five six seven eight nine ten".split(), range(1, 11)))
faults = []


def text_of(name):
    return (TOP / name).read_text(encoding="utf-8")


def fault(name, at, why):
    """Keeps a fault, with the line of a text's place."""
    faults.append(f"{name}:{text_of(name).count(chr(10), 0, at) + 1}: {why}")


def failed(*words):
    return subprocess.run(words, cwd=TOP, capture_output=True, check=False).returncode != 0


def try_commands():
    """The commands of README: install.sh knows their words, files are there, and the program's usage is the program's."""
    text = text_of(README)
    said = subprocess.run(["sh", "install.sh", "--help"], cwd=TOP, capture_output=True, text=True, check=False)
    if said.returncode:
        fault(README, text.find("install.sh"), "sh install.sh --help fails")
    for call in re.finditer(r"sh install\.sh(?: (--\w+))?", text):
        if call[1] and f"sh install.sh {call[1]} " not in said.stdout:
            fault(README, call.start(), f"install.sh --help does not name {call[1]}")
    for call in re.finditer(r"^    syncat (.+)$", text, flags=re.M):
        words = call[1].split(" > ")[0].split()
        usage = f'"usage: syncat {call[1]}\\n"'
        if words[0] == "FOLDER" and usage not in text_of("crates/syntect_cat/src/fault.rt"):
            fault(README, call.start(), "the program's usage is another one")
        if words[0] != "FOLDER" and not (len(words) == 4 and all((TOP / words[it]).exists() for it in (0, 1, 3))):
            fault(README, call.start(), "the call names something that is not there")
    if failed("sh", "scripts/quotes.sh"):
        faults.append("sh scripts/quotes.sh fails: what docs/ quote is another text")
    if failed(sys.executable, "scripts/edits.py", "--check"):
        faults.append("docs/edits.tsv: it is not up to date: python3 scripts/edits.py")


def try_quote():
    """README's lines of code stand in the function that it names."""
    text = text_of(README)
    for block in re.finditer(r"^```rust\n(.*?)^```", text, flags=re.M | re.S):
        if block[1] not in text_of("crates/syntect_example_pager/src/main.rt"):
            fault(README, block.start(), "this code is not that of crates/syntect_example_pager/src/main.rt")


def crates_below(crate):
    """A crate and all of the repository that it stands on."""
    uses = dict(re.findall(r"^(\w+)(?: \S+)*:(.*)$", text_of("crates.txt"), flags=re.M))
    found, left = set(), [crate]
    while left:
        name = left.pop()
        if name in uses and name not in found:
            found.add(name)
            left += uses[name].split()
    return found


def edits(where):
    return sum(line.split("\t")[2] == where for line in text_of("docs/edits.tsv").splitlines()[1:])


def figure(where, pattern):
    """The numbers that a page has in the groups of a pattern."""
    found = re.search(pattern, text_of(where), flags=re.S)
    if found:
        return [float(it) for it in found.groups()]
    faults.append(f"{where}: nothing reads like {pattern} any more; README.md has figures of it")
    return [None] * re.compile(pattern).groups


def files(pattern):
    return len(list(TOP.glob(pattern)))


def wanted():
    """Of each place of README that has figures, a pattern, and what they are to be."""
    (grammars, clearing), (patterns, unlinear) = (
        figure("docs/DIFFERENCES.md", r"Of the crate's (\d+) grammars (\d+) use the key"),
        figure("docs/BOUND.md", r"Of the (\d+) patterns of the 75 grammars, as they stand, (\d+) are not linear"),
    )
    texts, memory = figure("docs/SPEED.md", r"Of all (\d+) texts, three runs.*?at most (0\.\d+) of")
    needs = [it / 1000 for it in figure("install.sh", r"first_need=(\d+).*?disk_need=(\d+)") if it]
    minutes = figure("docs/GATE.md", r"`sh install\.sh` proves .*?: (\d+) minutes")
    return [
        (r"(\d+) of the (\d+) grammars that the Rust crate", [grammars and grammars - clearing, grammars]),
        (r"all but (\d+) of the (\d+) in those (\d+) grammars", [unlinear, patterns, grammars]),
        (r"([\d.]+) GB of memory, ([\d.]+) GB of disk", needs),
        (r"some (\d+) minutes on four processors, to prove (\d+) crates", [*minutes, len(crates_below("syncat"))]),
        (r"(\d+) edits that each .*? these and (\d+) more", [edits("gate"), edits("more")]),
        (r"grammars of (\d+) languages in `grammars`", [files("grammars/*.sublime-syntax")]),
        (r"with (\d+) grammars loaded, takes at most ([\d.]+) of the crate's memory on each of (\d+) texts",
         [grammars, memory, texts]),
        (r"tested\]\(docs/TESTED.md\) on (\d+) real files", figure("docs/TESTED.md", r"(\d+) real files")),
    ]


def try_figures():
    """README's figures beside what they come from."""
    text = text_of(README)
    for pattern, numbers in wanted():
        place = re.search(pattern, text)
        if not place:
            faults.append(f"{README}: nothing reads like {pattern} any more; scripts/readme.py tells what it was")
        elif [float(NUMBERS.get(it, it)) for it in place.groups()] != numbers:
            fault(README, place.start(), f"{' and '.join(place.groups())} should be {numbers}")
    ratios = []
    for row in re.finditer(r"^\| (\S+) \| (\d+) \| ([\d.]+) \| ([\d.]+) \| ([\d.]+) \|$", text, flags=re.M):
        ratios.append(row[1])
        cells = re.escape(row[1]) + r" \| (\d+) \| [\d.]+ \| ([\d.]+) \| [\d.]+ \| ([\d.]+) \| [\d.]+ \| ([\d.]+) \|"
        if figure("docs/SPEED.md", cells) != [float(it) for it in row.groups()[1:]]:
            fault(README, row.start(), f"docs/SPEED.md says otherwise of {row[1]}")
    if len(ratios) != 4:
        faults.append(f"{README}: four rows of speed are wanted, and it has {len(ratios)}")
    try_claims(text)


def try_claims(text):
    """What README says of all rows of the tables of speed, and of the kit."""
    rows = re.findall(r"^\| (\S+) \| (\d+) (?:\| [\d.]+ ){5}\| ([\d.]+) \|$", text_of("docs/SPEED.md"), flags=re.M)
    large = [float(ratio) for _, size, ratio in rows if int(size) > 50]
    claim = re.search(r"about a fifth of the crate's time on texts of code above 50 KB", text)
    if not claim:
        faults.append(f"{README}: nothing is said of texts above 50 KB any more; scripts/readme.py tells what it was")
    elif not large or not 0.15 <= max(large) <= 0.22:
        fault(README, claim.start(), "docs/SPEED.md says otherwise of the texts above 50 KB")
    last = re.findall(r"^\| (\S+) \| \d+ \| [\d.]+ \| [\d.]+ \| [\d.]+ \|$", text, flags=re.M)[-1:]
    if rows and last != [max(rows, key=lambda it: float(it[2]))[0]]:
        fault(README, text.find("the last row"), "the last row is not that of the text that takes most")
    kit = re.search(r"^Proved with `([^`]*)`", text, flags=re.M)
    if not kit:
        faults.append(f"{README}: no line begins with: Proved with `the kit's line`")
    elif shutil.which("rt"):
        here = subprocess.run(["rt", "version"], capture_output=True, text=True, check=False).stdout.strip()
        if here != kit[1]:
            print(f"readme.py: note: {README} names another kit than this one, {here}")


def main():
    try_commands()
    try_quote()
    try_figures()
    for line in faults:
        print(f"readme.py: {line}", file=sys.stderr)
    return 1 if faults else 0


if __name__ == "__main__":
    sys.exit(main())
