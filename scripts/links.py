#!/usr/bin/env python3
"""Whether what the documents name is there, and whether their figures are those of what they come from.

    python3 scripts/links.py            looks through them
    python3 scripts/links.py --write    writes CHANGING.md's table of what is proved again anew

Looks through README.md, CONTRIBUTING.md, CHANGELOG.md, docs/ and the documents of bindings/. Links lead to files, headings and
lines; files in backticks are there, `{A,B}` standing for each, and in docs/CHANGING.md below the crate that is named before; names
of definitions, clauses and calls stand in the sources; commands name scripts, words of install.sh and words of the program
vulsangi; README.md leads to each page of docs/; figures that a table or a source has are the same; and the
rows of a table have equally many cells. What stands in a comment of
HTML is passed over. Each fault is a line; the status is 1 where there is one.
"""
import collections
import pathlib
import re
import subprocess
import sys

TOP = pathlib.Path(__file__).resolve().parent.parent
FOLDERS = "docs|crates|scripts|examples|grammars|completions|bindings|patches|.ci"
# pages whose names in backticks are those of this repository's sources
SPOKEN = (
    "ACCOUNT ARCHITECTURE BOUND CALLING CHANGING CONTRACTS DECISIONS DEFINITIONS GATE GUIDE NOT_PROMISED PROVED ROWS TESTED"
).split()
# what a reader is told to make, and names of the crate's tests
FOREIGN = {"plist_to_json.py", "viewer", "can_parse_common_themes", "is_sync", "is_send"}
# the names of the files of all crates
SOURCES = {it.name for it in (TOP / "crates").rglob("*") if it.suffix in (".rt", ".antt") and "out" not in it.parts}
faults = []


def text_of(path):
    return (TOP / path).read_text(encoding="utf-8")


def fault(page, at, why):
    faults.append(f"{page}:{PAGES[page].count(chr(10), 0, at) + 1}: {why}")


def bare(text):
    """A page without its comments, at the same places."""
    return re.sub(r"<!--.*?-->", lambda it: re.sub(r"[^\n]", " ", it[0]), text, flags=re.S)


def pages():
    files = [TOP / it for it in ("README.md", "CONTRIBUTING.md", "CHANGELOG.md")]
    files += [*sorted((TOP / "docs").glob("*.md")), *sorted((TOP / "bindings").rglob("*.md"))]
    return {str(it.relative_to(TOP)): bare(it.read_text(encoding="utf-8")) for it in files if it.is_file()}


PAGES = pages()

# ---- links and files ----


def headings(path):
    """The anchors of a page's headings."""
    plain = re.sub(r"^```.*?^```", "", text_of(path), flags=re.M | re.S)
    found, seen = set(), collections.Counter()
    for heading in re.findall(r"^#+ (.*)$", plain, flags=re.M):
        name = re.sub(r"[^\w\- ]", "", heading.lower()).replace(" ", "-")
        found.add(f"{name}-{seen[name]}" if seen[name] else name)
        seen[name] += 1
    return found


def is_line(path, anchor):
    number = re.fullmatch(r"L(\d+)", anchor)
    return number and 0 < int(number[1]) <= text_of(path).count("\n")


def try_links(page, text):
    plain = re.sub(r"^```.*?^```|`[^`\n]*`", lambda it: re.sub(r"[^\n]", "x", it[0]), text, flags=re.M | re.S)
    for link in re.finditer(r"\]\(([^)\s]+)\)|(?:src|srcset|href)=\"([^\"]+)\"", plain):
        target = link[1] or link[2]
        if re.match(r"\w+:", target):
            continue
        file, _, anchor = target.partition("#")
        path = ((TOP / page).parent / file).resolve() if file else TOP / page
        if not path.exists():
            fault(page, link.start(), f"{target} leads nowhere")
        elif anchor and not is_line(path, anchor) and anchor not in headings(path):
            fault(page, link.start(), f"{file or page} has no heading or line #{anchor}")


def spread(word):
    """A path with {A,B} as several."""
    braces = re.search(r"\{([^{}]*)\}", word)
    if not braces:
        return [word]
    return [it for part in braces[1].split(",") for it in spread(word[: braces.start()] + part + word[braces.end():])]


def try_files(page, text):
    """Files that are named whole, and pages that are named by their names."""
    plain = re.sub(r"^```.*?^```", lambda it: re.sub(r"[^\n]", "x", it[0]), text, flags=re.M | re.S)
    for it in re.finditer(rf"(?<![\w/.-])((?:{FOLDERS})/[\w.{{}},+/-]+|[A-Z][A-Z_]+\.md)", plain):
        for word in spread(it[1].rstrip(".,")):
            if re.search(r"\b(?:NAME|FILE|CRATE)\b", word) or "/out/" in word:
                continue
            if not any((TOP / folder / word).exists() for folder in ("", "docs")):
                fault(page, it.start(), f"{word} is not there")
    for it in re.finditer(r"`(\w+\.(?:rt|antt))`", plain):
        if it[1] not in SOURCES:
            fault(page, it.start(), f"no crate has {it[1]}")
    for it in re.finditer(r"`(\w+\.(?:py|tsv))\b", plain):
        if not any((TOP / folder / it[1]).exists() for folder in ("scripts", "docs", "crates/syntect_bench/data")):
            if it[1] not in FOREIGN:
                fault(page, it.start(), f"{it[1]} is not there")


def try_rows(page, text):
    """The files of CHANGING.md, each below the crate that is named before it."""
    crate, first = None, text.find("\n## An anchor")
    for it in re.finditer(r"`(syntect\w*|syncat|vulsangi\w*)`:|`((?:specs|src|proofs)/[^`*]+)`|^##? ", text, flags=re.M):
        if it.start() < first:
            continue
        if it[1]:
            crate = it[1]
        elif it[2]:
            for file in spread(it[2]):
                if not crate or not (TOP / "crates" / crate / file).exists():
                    fault(page, it.start(), f"crates/{crate}/{file} is not there")
        else:
            crate = None


def try_tables(page, text):
    """Rows have as many cells as the head of their table: a bar within one is written \\|."""
    head, at = 0, 0
    for line in re.sub(r"^```.*?^```", lambda it: re.sub(r"[^\n]", "x", it[0]), text, flags=re.M | re.S).splitlines(keepends=True):
        cells = len(re.findall(r"(?<!\\)\|", line)) if line.startswith("|") else 0
        head = head or cells if cells else 0
        if cells != head:
            fault(page, at, f"a row of {cells - 1} cells in a table of {head - 1}")
        at += len(line)


# ---- names ----


def words_of_sources():
    words = set()
    for path in [*(TOP / "crates").rglob("*"), *(TOP / "scripts").iterdir(), *(TOP / it for it in ("crates.txt", "install.sh", ".ci/run"))]:
        if path.is_file() and "out" not in path.parts and path.suffix in (".rt", ".antt", ".py", ".sh", ".txt", ""):
            words.update(re.findall(r"[^\W\d]\w*", path.read_text(encoding="utf-8", errors="replace")))
    files = [*(TOP / "crates").rglob("*.*"), *(TOP / "docs").iterdir()]
    return words | {it.name for it in files} | {it.stem for it in files} | {it.name for it in (TOP / "crates").iterdir()}


def try_names():
    there = words_of_sources() | FOREIGN
    for name in SPOKEN:
        page = f"docs/{name}.md"
        plain = re.sub(r"^```.*?^```", lambda it: re.sub(r"[^\n]", "x", it[0]), PAGES.get(page, ""), flags=re.M | re.S)
        for it in re.finditer(r"`([^\W\d]\w*(?:(?:::|\.)[^\W\d]\w*)*)(?:\(\))?`", plain):
            missing = [word for word in re.split(r"::|\.", it[1]) if word not in there and not word.startswith("_")]
            if missing and it[1] not in there and len(it[1]) > 1:
                fault(page, it.start(), f"no source has {missing[0]}")


# ---- commands ----


def words_of_program():
    """The words of one or two hyphens that vulsangi takes, and the formats that it makes."""
    text = text_of("crates/vulsangi_words/src/words.rt")
    long = {f"--{it}" for it in re.findall(r"(?:flag|options?)\(\s*alloc,\s*\"([\w-]+)\"", text)}
    short = {f"-{it}" for it in re.findall(r"\.short\('(\w)'\)", text)}
    formats = " ".join(re.findall(r"let formats[^=]*= &\[([^\]]*)\]", text))
    return long | short | {"--help", "-h", "--version", "-V"}, re.findall(r'"(\w+)"', formats)


def try_commands():
    known, formats = words_of_program()
    said = subprocess.run(["sh", "install.sh", "--help"], cwd=TOP, capture_output=True, text=True, check=False).stdout
    for page, text in PAGES.items():
        for call in re.finditer(r"(?:^    (?:.*\| )?|`)vulsangi ([^|>`\n]*)", text, flags=re.M):
            words = call[1].split()
            for at, word in enumerate(words):
                option = word.partition("=")[0]
                if re.match(r"--?[A-Za-z]", word) and option not in known:
                    fault(page, call.start(), f"vulsangi does not know {option}")
                if word in ("-f", "--format") and words[at + 1:at + 2] and words[at + 1] not in formats:
                    fault(page, call.start(), f"vulsangi makes no {words[at + 1]}")
        for call in re.finditer(r"sh install\.sh (--\w+)", text):
            if f"sh install.sh {call[1]} " not in said:
                fault(page, call.start(), f"install.sh --help does not name {call[1]}")


# ---- figures ----


def graph():
    """The crates of crates.txt, each with all of them below it, and the libraries of the kit that they use."""
    lines = dict(re.findall(r"^(\w+)[^:\n#]*:(.*)$", text_of("crates.txt"), flags=re.M))
    below = {}
    for crate in lines:
        found, left = set(), [crate]
        while left:
            for it in lines[left.pop()].split():
                if it in lines and it not in found:
                    found.add(it)
                    left.append(it)
        below[crate] = found
    return below, {it for line in lines.values() for it in line.split() if it not in lines}


def seconds():
    rows = [it.split("\t") for it in text_of("docs/gate.tsv").splitlines() if it and not it.startswith("#")]
    return {it[0]: float(it[1]) + float(it[2]) for it in rows}


def try_crates():
    """ARCHITECTURE names each crate, NOT_PROMISED each library, and CHANGING's table says what stands on a crate."""
    below, kit = graph()
    timed = seconds()
    named = set(re.findall(r"`(\w+)`", PAGES["docs/ARCHITECTURE.md"]))
    for row in PAGES["docs/ARCHITECTURE.md"].splitlines():
        cells = row.split(" | ")[0]
        for first, rest in re.findall(r"`(syntect_[a-z]+)_\w+`((?:, `_\w+`)+)", cells):
            named.update(first + it for it in re.findall(r"`(_\w+)`", rest))
    faults.extend(f"docs/ARCHITECTURE.md: {it} is not named" for it in sorted(set(below) - named))
    told = PAGES["docs/NOT_PROMISED.md"].partition("The crates stand on the kit's")[2].partition(".")[0]
    if set(re.findall(r"`(\w+)`", told)) - {"vulsangi"} != kit:
        faults.append(f"docs/NOT_PROMISED.md: the kit's crates that are used are {', '.join(sorted(kit))}")
    for row, wanted in rows_of_crates(below, timed):
        if row[0] != wanted:
            fault("docs/CHANGING.md", row.start(), f"the row should be {wanted}")
    return len(set(below) - set(timed))


def rows_of_crates(below, timed):
    """The rows of CHANGING's table, each with what it should be."""
    for row in re.finditer(r"^\| `(\w+)` \| \d+ \| \d+ \|$", PAGES["docs/CHANGING.md"], flags=re.M):
        above = [crate for crate in below if row[1] in below[crate]] + [row[1]]
        yield row, f"| `{row[1]}` | {len(above)} | {round(sum(timed.get(it, 0) for it in above) / 60)} |"


def lines_of(kind):
    return sum(it.read_text(encoding="utf-8").count("\n") for it in (TOP / "crates").glob(kind))


def first_number(script):
    said = subprocess.run([sys.executable, f"scripts/{script}"], cwd=TOP, capture_output=True, text=True, check=False)
    return [int(it) for it in re.findall(r"\d+", said.stdout)]


def usual_limits():
    text = re.search(r"fn default\(\) -> Limits(.*?)\n    }\n", text_of("crates/syntect_base/src/limits.rt"), flags=re.S)
    return {name: int(it.replace("_", "")) for name, it in re.findall(r"(\w+): ([\d_]+)", text[1] if text else "")}


def numbers_near(text):
    return [int(it.replace(",", "")) for it in re.findall(r"\d[\d,]*", text)]


def try_figures(untimed):
    rows = [it.split("\t") for it in text_of("docs/edits.tsv").splitlines()[1:]]
    seen = collections.Counter("gate" if it[2] == "gate" else it[4] for it in rows)
    more = len(rows) - seen["gate"]
    believed = PAGES["docs/BELIEVED.md"]
    of_all = re.search(r"There are (\d+) definitions", believed)
    of_line = re.search(r"`HighlightLines::highlight_line` \| (\d+) \| \d+ \| (\d+) \| (\d+) %", believed)
    ways, refusals = first_number("ways.py"), first_number("named_refusals.py")[1:2]
    grammars = len(list((TOP / "grammars").glob("*.sublime-syntax")))
    sizes = [lines_of(it) / 1000 for it in ("*/**/*.rt", "*/specs/**/*.antt", "*/proofs/**/*.antt")]
    wanted = [
        ("ACCOUNT", r"There are (\d+) definitions; `highlight_line` rests on (\d+) of them, (\d+) lines, (\d+) %",
         [of_all and int(of_all[1]), *(map(int, of_line.groups()) if of_line else [None] * 3)]),
        ("ACCOUNT", r"(\d+) edits, each .*?Of (\d+) more (\d+) were refused at their last try, (\d+) before .*?, and (\d+) have not",
         [seen["gate"], more, seen["last try"], seen["before a change"], seen["not as it stands"]]),
        ("TESTED", r"\| (\d+) edits that plant a fault", [seen["gate"]]),
        ("TESTED", r"public calls that can be refused.*?\| (\d+) \|", first_number("public_calls.py")[:1]),
        ("TESTED", r"named refusals of public calls.*?\| (\d+) tested", refusals),
        ("ACCOUNT", r"one for each of (\d+) named refusals", refusals),
        ("GATE", r"(\d+) ways lead down from `syntect`, and (\d+) from", ways[:2]),
        ("GATE", r"; (\w+) crates that came since it lacks", [untimed]),
        ("GRAMMARS", r"(\d+) ship in `grammars`", [grammars]),
    ]
    count = {it: n for n, it in enumerate("no one two three four five six seven eight nine ten eleven twelve".split())}
    for name, pattern, numbers in wanted:
        page = f"docs/{name}.md"
        it = re.search(pattern, PAGES[page], flags=re.S)
        if not it:
            faults.append(f"{page}: nothing reads like {pattern} any more; scripts/links.py tells what it was")
        elif [count[n] if n in count else int(n) for n in it.groups()] != numbers:
            fault(page, it.start(), f"{' and '.join(it.groups())} should be {numbers}")
    told = re.search(r"Some (\d+),000 lines of code with contracts, (\d+),000 of definitions and (\d+),000 of proof", PAGES["docs/ACCOUNT.md"])
    if not told or any(abs(int(said) - size) > 0.03 * size for said, size in zip(told.groups(), sizes)):
        faults.append(f"docs/ACCOUNT.md: thousands of lines of code, definitions and proof are {[round(it) for it in sizes]}")
    told = dict(re.findall(r"^\| `(\w+)` \| [^|]* \| ([\d,]+) \|", PAGES["docs/BOUND.md"], flags=re.M))
    for name, number in usual_limits().items():
        if numbers_near(told.get(name, "")) != [number]:
            faults.append(f"docs/BOUND.md: Limits::default() has {name} of {number}")


# a figure's home, and the other places that have it
SAME = [
    ("TESTED", r"\| (\d+) queries of real patterns", [
        ("PROVED", r"(\d+) queries tested against"), ("ACCOUNT", r"(\d+) queries of real"), ("SPEED", r"(\d+) searches of real patterns")]),
    ("TESTED", r"(\d+) real files in", [("ACCOUNT", r"pages of (\d+) real files")]),
    ("TESTED", r"(\d+) further files .*?\| (\d+) pages", [("ACCOUNT", r"of (\d+) further ones (\d+)")]),
    ("TESTED", r"random_patterns.py BENCH (\d+)", [("ACCOUNT", r"(\d+) random patterns")]),
    ("TESTED", r"(\d+) hostile grammars", [("ACCOUNT", r"(\d+) hostile grammars")]),
    ("TESTED", r"hostile_inputs.*?at most ([\d.]+) s .*? and (\d+) MB", [("ACCOUNT", r"each of the hostile ends in ([\d.]+) s and (\d+) MB")]),
    ("TESTED", r"([\d,]+) small random grammars", [("ACCOUNT", r"hostile grammars, ([\d,]+) random")]),
    ("TESTED", r"the same of (\d+) calls", [("ACCOUNT", r"trials that call (\d+) calls"), ("ACCOUNT", r"whole runs and of (\d+) calls")]),
    ("TESTED", r"by the proved bench \| (\d+) columns", [("TESTED", r"its `test` reads (\d+) columns"), ("TESTED", r"(\d+) columns in all")]),
    ("BOUND", r"as they stand, (\d+) are not linear", [("NOT_PROMISED", r"grammars have (\d+) are not linear")]),
    ("DIFFERENCES", r"Of the crate's (\d+) grammars (\d+) use the key", [("NOT_PROMISED", r"of the crate's (\d+) grammars don't have that key, and `DIFFERENCES.md` tells of the other (\d+)")]),
]


def try_same():
    """Figures that stand in several places."""
    for home, pattern, others in SAME:
        found = re.search(pattern, PAGES[f"docs/{home}.md"])
        if not found:
            faults.append(f"docs/{home}.md: nothing reads like {pattern} any more; scripts/links.py tells what it was")
            continue
        for name, other in others:
            page = f"docs/{name}.md"
            place = re.search(other, PAGES[page])
            if not place:
                faults.append(f"{page}: nothing reads like {other} any more; scripts/links.py tells what it was")
            elif place.groups() != found.groups():
                fault(page, place.start(), f"{' and '.join(place.groups())} should be {' and '.join(found.groups())}, by docs/{home}.md")


def main():
    if sys.argv[1:] == ["--write"]:
        text = text_of("docs/CHANGING.md")
        for row, wanted in rows_of_crates(graph()[0], seconds()):
            text = text.replace(row[0], wanted)
        (TOP / "docs/CHANGING.md").write_text(text, encoding="utf-8")
        return 0
    if len(sys.argv) > 1:
        print(__doc__, file=sys.stderr)
        return 2
    for page, text in PAGES.items():
        try_links(page, text)
        try_tables(page, text)
        if page != "docs/BELIEVED.md":
            try_files(page, text)
    try_rows("docs/CHANGING.md", PAGES["docs/CHANGING.md"])
    try_names()
    try_commands()
    for page in PAGES:
        if page.startswith("docs/") and f"({page})" not in PAGES["README.md"]:
            faults.append(f"README.md: nothing leads to {page}")
    try_figures(try_crates())
    try_same()
    for line in faults:
        print(f"links.py: {line}", file=sys.stderr)
    return 1 if faults else 0


if __name__ == "__main__":
    sys.exit(main())
