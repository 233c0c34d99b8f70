#!/usr/bin/env python3
"""How many ways lead down crates.txt from a crate.

    python3 scripts/ways.py [CRATE..]

rt follows each way from a crate to those below it anew, at each command, so that a line of crates.txt names a crate only
where no other of its names stands on that one: a crate passes on what it stands on (`pub use` in its root, and in its
specs/Lib.antt and proofs/Lib.antt). Prints the ways from `syntect`, from the crate that has most, and from each CRATE; the
status is 1 where there are more than 600 from `syntect`, or more than 2000 from any.
"""
import functools
import pathlib
import re
import sys

TOP = pathlib.Path(__file__).resolve().parent.parent
MOST_OF_LIBRARY, MOST = 600, 2000


def names():
    """The crates of the repository, each with those of them that its line names."""
    lines = re.findall(r"^(\w+)[^:\n#]*:(.*)$", (TOP / "crates.txt").read_text(encoding="utf-8"), flags=re.M)
    ours = {crate for crate, _ in lines}
    return {crate: [it for it in line.split() if it in ours] for crate, line in lines}


def main():
    below = names()

    @functools.lru_cache(None)
    def ways(crate):
        return sum(1 + ways(it) for it in below[crate])

    most = max(below, key=ways)
    for crate in dict.fromkeys(["syntect", most, *sys.argv[1:]]):
        print(f"{ways(crate)} ways down from {crate}")
    sys.exit(1 if ways("syntect") > MOST_OF_LIBRARY or ways(most) > MOST else 0)


main()
