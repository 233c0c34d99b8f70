#!/usr/bin/env python3
"""Makes docs/edits.tsv, the table of the edits that must fail, anew.

    python3 scripts/edits.py [--check]

An edit plants a fault in a body, and a check has to refuse it. A line has its crate, its file's name, where it stands
(`gate`: in must-fail, tried at each run of the gate; `more`: in more-edits, tried by `python3 scripts/more_edits.py CRATE`),
what it turns, by its name, when it was refused, by which goals of the check, and on which text of its crate, by a sum. Of an
edit outside the gate it was refused at its `last try`, where its crate's text is the one that the sum is of; `before a change`
of that text else; or it is `not as it stands`, as a new one. With --check the table is only compared, and the status is 1 where
it is another one.
"""
import hashlib
import pathlib
import sys

TOP = pathlib.Path(__file__).resolve().parent.parent
TABLE = TOP / "docs" / "edits.tsv"
HEAD = "# crate\tedit\twhere\twhat it turns\trefused\tby\ttext"
NOW, BEFORE, NEVER = "last try", "before a change", "not as it stands"


def text_sum(crate):
    """A sum of a crate's code, definitions and proofs."""
    sum_of = hashlib.sha256()
    for part in ("src", "specs", "proofs"):
        base = TOP / "crates" / crate / part
        for file in sorted(it for it in base.rglob("*") if it.is_file()):
            sum_of.update(str(file.relative_to(base)).encode() + b"\0" + file.read_bytes() + b"\0")
    return sum_of.hexdigest()[:12]


def tries():
    """What the table says of each edit's last try: when, by what, and on which text."""
    found = {}
    if TABLE.is_file():
        for line in TABLE.read_text(encoding="utf-8").splitlines()[1:]:
            words = line.split("\t") + ["", ""]
            found[words[0], words[1]] = (words[4], words[5], words[6])
    return found


def refused(crate, name, where, seen, sums):
    """The last three cells of an edit."""
    when, by, of = seen.get((crate, name), (NEVER, "", ""))
    if crate not in sums:
        sums[crate] = text_sum(crate)
    if of:
        when = NOW if of == sums[crate] else BEFORE
    return "each gate" if where == "gate" else when, by, of


def table(seen):
    """The table's text."""
    lines, sums = [], {}
    for folder, where in (("must-fail", "gate"), ("more-edits", "more")):
        for file in TOP.glob(f"crates/*/{folder}/*.edit"):
            crate, name = file.parts[-3], file.stem
            cells = [crate, name, where, name.replace("_", " "), *refused(crate, name, where, seen, sums)]
            lines.append("\t".join(cells).rstrip("\t"))
    return "\n".join([HEAD, *sorted(lines)]) + "\n"


def keep(crate, name, by, of):
    """Writes into the table that an edit was refused by these goals, on the text of its crate with this sum."""
    seen = tries()
    seen[crate, name] = (NOW, by, of)
    TABLE.write_text(table(seen), encoding="utf-8")


def main():
    text = table(tries())
    if sys.argv[1:] not in ([], ["--check"]):
        print(__doc__, file=sys.stderr)
        return 2
    if not sys.argv[1:]:
        TABLE.write_text(text, encoding="utf-8")
    elif not TABLE.is_file() or TABLE.read_text(encoding="utf-8") != text:
        print("docs/edits.tsv is not up to date: python3 scripts/edits.py", file=sys.stderr)
        return 1
    return 0


if __name__ == "__main__":
    sys.exit(main())
