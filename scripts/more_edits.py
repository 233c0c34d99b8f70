#!/usr/bin/env python3
"""Tries edits that must fail, each by a check of the function that it changes, and writes into docs/edits.tsv what refused it.

    python3 scripts/more_edits.py [--built FOLDER] [--lanes N] [--again] [CRATE..]

Each edit in crates/NAME/more-edits and crates/NAME/must-fail turns the meaning of a function, and the prover has to refuse it. FOLDER is
a checkout of this text in which `rt ci` built the crates (this one, where none is named): their proofs serve for all that
stands below a crate. N crates are tried at a time (as many as there are processors). An edit that was refused on the text of
its crate as it stands is passed over, unless --again is given: so a run that was cut off goes on where it stopped. Where the
check of the function lets an edit pass, the whole crate is checked with it. The status is 1 where one passes that too.
"""
import os
import pathlib
import re
import shutil
import subprocess
import sys
import tempfile
import threading

sys.path.insert(0, str(pathlib.Path(__file__).resolve().parent))
import edits  # noqa: E402

TOP = pathlib.Path(__file__).resolve().parent.parent
KIT = pathlib.Path(subprocess.run(["rt", "doc"], capture_output=True, text=True, check=True).stdout.strip()).parent
LOCK = threading.Lock()
FUNCTION = re.compile(r"\s*(?:pub(?:\([^)]*\))?\s+)?(?:const\s+)?(?:unsafe\s+)?(?:extern \"C\"\s+)?fn\s+(\w+)")
BLOCK = re.compile(r"(?:unsafe )?impl(?:<.*?>)?\s+(.*?)\s*(?:where.*)?\{?$")


def needs():
    """The libraries of each crate, and the crates that are static libraries."""
    found, static = {}, set()
    for line in (TOP / "crates.txt").read_text(encoding="utf-8").splitlines():
        head, _, rest = line.split("#")[0].partition(":")
        if head.strip():
            name, *kind = head.split()
            found[name] = rest.split()
            static |= {name} if kind else set()
    return found, static


def below(crate, known, found=None):
    """The crates of this repository that a crate stands on."""
    found = [] if found is None else found
    for name in known[crate]:
        if name in known and name not in found:
            found.append(name)
            below(name, known, found)
    return found


def command(crate, known, static, built, kept):
    """The check of a crate over built libraries."""
    def rlib(name):
        return f"{built}/crates/{name}/out/rlib/{name}.rlib" if name in known else f"{KIT}/rlibs/{name}.rlib"

    words = [f"{KIT}/bin/rattle", "check", "--crate-name", crate, "src/lib.rt", "-L", f"dependency={KIT}/rlibs"]
    words += ["--crate-type", "staticlib"] if crate in static else []
    for name in ["std", *known[crate]]:
        words += ["--extern", f"{name}={rlib(name)}"]
    for name in below(crate, known):
        words += ["-L", f"dependency={built}/crates/{name}/out/rlib"]
    return [*words, "--antt-project", f"{KIT}/rattle/logic/antt-project.json", "--logic-built", f"{KIT}/logic_built",
            "--links", f"{crate}=", "--jobs", "1", "--incremental", kept]


def pairs(text):
    """The changes of an edit: files, with old and new lines."""
    file = old = None
    for line in text.splitlines():
        key, _, rest = line.partition(": ")
        if key == "file":
            file = rest
        elif key == "old":
            old = rest
        elif line.startswith("new:"):
            yield file, old, rest


def function_at(file, text, place):
    """The path below its crate of the function at a place, or None."""
    lines = text.split("\n")
    number = text.count("\n", 0, place)
    while number >= 0 and not FUNCTION.match(lines[number]):
        number -= 1
    if number < 0:
        return None
    name = FUNCTION.match(lines[number]).group(1)
    module = re.sub(r"(^|::)(lib|main|mod)$", "", file[len("src/"):-len(".rt")].replace("/", "::"))
    owner = ""
    if lines[number].startswith(" "):
        above = next((BLOCK.match(it) for it in reversed(lines[:number]) if BLOCK.match(it)), None)
        trait, _, of = (above.group(1) if above else "").rpartition(" for ")
        owner = re.split(r"[<{ ]", of.strip("&"))[0] + re.split(r"[<{ ]", trait)[0].split("::")[-1]
    return "::".join(it for it in (module, owner, name) if it)


def refused_by(text):
    """The goals that a check names as not proved, or what else it says is wrong."""
    goals = re.findall(r"it is not proved that .*?\(`([^`]+)`\)", text) + re.findall(r"error: `([^`]+)`:", text)
    for named in re.findall(r"did not prove ((?:`[^`]+`(?:, )?)+)", text):
        goals += re.findall(r"`([^`]+)`", named)
    goals = list(dict.fromkeys(goals))
    others = re.findall(r"error(?:\[[^]]*\])?: (.*)", text) + re.findall(r"^fn (\S+: (?:not proved|no proof|could not tell).*)", text, re.M)
    return ", ".join(goals[:4]) or (others[0][:60] if others else "another goal")


def run(words, folder):
    done = subprocess.run(words, cwd=folder, stdout=subprocess.PIPE, stderr=subprocess.STDOUT, text=True, check=False)
    return done.returncode, done.stdout


def tried(edit, crate, folder, words):
    """What refuses an edit: its goals, or None where it passes."""
    before, only = {}, []
    for file, old, new in pairs(edit.read_text(encoding="utf-8")):
        place = pathlib.Path(folder, file)
        text = place.read_text(encoding="utf-8")
        before.setdefault(place, text)
        if text.count(old) != 1:
            return f"stale: {file}"
        if file.startswith("src/"):
            only.append(function_at(file, text, text.index(old) + len(old) - len(old.lstrip())))
        else:
            only.append(None)
        place.write_text(text.replace(old, new), encoding="utf-8")
    try:
        asked = [] if None in only else [it for name in dict.fromkeys(only) for it in ("--only", name)]
        status, told = run([*words, *asked], folder)
        if asked and status in (0, 2):
            status, told = run(words, folder)
        return None if status == 0 else refused_by(told)
    finally:
        for place, text in before.items():
            place.write_text(text, encoding="utf-8")


def try_crate(crate, known, static, built, again, passed):
    """Tries the edits of a crate, one after another, over what is kept of the check before."""
    of = edits.text_sum(crate)
    with tempfile.TemporaryDirectory() as room:
        folder = pathlib.Path(room, crate)
        for part in ("src", "specs", "proofs"):
            if (TOP / "crates" / crate / part).is_dir():
                shutil.copytree(TOP / "crates" / crate / part, folder / part)
        words = command(crate, known, static, built, f"{room}/kept")
        for edit in sorted((TOP / "crates" / crate).glob("m*-*/*.edit")):
            with LOCK:
                is_known = edits.tries().get((crate, edit.stem), ("", "", ""))[2] == of
            if is_known and not again:
                continue
            by = tried(edit, crate, folder, words)
            print(f"{crate}: {edit.stem}: {'PASSES' if by is None else by}", flush=True)
            if by is None or by.startswith("stale"):
                passed.append(edit)
                continue
            with LOCK:
                edits.keep(crate, edit.stem, by, of)


def main():
    words, built, lanes, again = sys.argv[1:], TOP, os.cpu_count() or 1, False
    while words and words[0].startswith("--"):
        word = words.pop(0)
        if word == "--again":
            again = True
        elif word == "--built" and words:
            built = pathlib.Path(words.pop(0)).resolve()
        elif word == "--lanes" and words:
            lanes = int(words.pop(0))
        else:
            print(__doc__, file=sys.stderr)
            return 2
    (known, static), passed = needs(), []
    wanted = words or sorted({it.parts[-3] for it in TOP.glob("crates/*/m*-*/*.edit")})
    ready = [it for it in wanted if all((built / "crates" / name / "out/rlib").is_dir() for name in below(it, known))]
    for crate in sorted(set(wanted) - set(ready)):
        print(f"{crate}: what stands below it isn't built: rt ci", flush=True)
    room = threading.Semaphore(lanes)

    def lane(crate):
        with room:
            try_crate(crate, known, static, built, again, passed)

    threads = [threading.Thread(target=lane, args=(crate,)) for crate in ready]
    for thread in threads:
        thread.start()
    for thread in threads:
        thread.join()
    return 1 if passed else 0


if __name__ == "__main__":
    sys.exit(main())
