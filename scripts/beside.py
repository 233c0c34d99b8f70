#!/usr/bin/env python3
"""Times vulsangi beside bat, highlight and pygmentize, in whole runs, and prints a table in Markdown.

    python3 scripts/beside.py PROGRAM [ROUNDS] FILE..

Each program shows each file in colour, as for a terminal of 256 colours, into nothing. The least of the rounds counts, in
milliseconds of the clock, start and loading included, and of each program the most memory of its runs, in MB. The
programs take turns, so that a slow second of the machine is not one of them alone. PROGRAM finds the grammars and themes of
this repository. A program that isn't installed is left out.
"""
import os
import pathlib
import shutil
import sys
import tempfile
import time

TOP = pathlib.Path(__file__).resolve().parent.parent
OTHERS = {
    "bat": [["batcat", "bat"], ["--color=always", "--paging=never", "--style=plain"]],
    "highlight": [["highlight"], ["-O", "xterm256", "--force"]],
    "pygmentize": [["pygmentize"], ["-f", "terminal256"]],
}


def programs(own):
    """The programs that there are, by name, each with its words."""
    found = {"vulsangi": [own, "--color=always"]}
    for name, (files, words) in OTHERS.items():
        places = [place for place in map(shutil.which, files) if place]
        if places:
            found[name] = [places[0], *words]
    return found


def one_run(words, place):
    """Milliseconds and MB of a run, or None where it ends with another status than 0."""
    nothing = os.open(os.devnull, os.O_WRONLY)
    begin = time.monotonic()
    child = os.fork()
    if child == 0:
        os.dup2(nothing, 1)
        os.dup2(nothing, 2)
        os.environ.update(place)
        os.execv(words[0], words)
    _, status, used = os.wait4(child, 0)
    took = (time.monotonic() - begin) * 1000
    os.close(nothing)
    return None if status else (took, used.ru_maxrss / 1024)


def row(file, found, rounds, place):
    """The cells of a file."""
    best = {}
    for _ in range(rounds):
        for name, words in found.items():
            run = one_run([*words, file], place)
            if run:
                took, size = best.get(name, run)
                best[name] = (min(took, run[0]), max(size, run[1]))
    told = [f"{best[name][0]:.0f}, {best[name][1]:.0f} MB" if name in best else "-" for name in found]
    return [pathlib.Path(file).name, f"{os.path.getsize(file) / 1024:.0f}", *told]


def main():
    words = sys.argv[1:]
    rounds = int(words.pop(1)) if len(words) > 1 and words[1].isdigit() else 5
    if len(words) < 2:
        print(__doc__, file=sys.stderr)
        return 2
    own, *files = words
    found = programs(os.path.abspath(own))
    with tempfile.TemporaryDirectory() as room:
        data = pathlib.Path(room, "vulsangi")
        shutil.copytree(TOP / "grammars", data / "grammars")
        (data / "themes").mkdir()
        for theme in (TOP / "examples").glob("*.json"):
            shutil.copy(theme, data / "themes")
        place = {"XDG_DATA_HOME": room, "XDG_CONFIG_HOME": room, "COLORTERM": "", "TERM": "xterm-256color"}
        print("|", " | ".join(["File", "KB", *found]), "|")
        print("|---" * (2 + len(found)) + "|")
        for file in files:
            print("|", " | ".join(row(file, found, rounds, place)), "|", flush=True)
    return 0


if __name__ == "__main__":
    sys.exit(main())
