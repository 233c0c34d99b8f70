#!/usr/bin/env python3
"""Whether each named refusal is tested through each public call that can answer it.

    python3 scripts/named_refusals.py

Reads the sources of the library's crates for public calls whose answer has an error with named refusals, want of memory aside,
and compares each call with each refusal of its error with docs/refusals.tsv. A line there has the call, the refusal and, in
words with commas between, where it is answered: `row LABEL` of the bench, `test NAME`, `data FILE` of the bench; or behind a
colon `by hand`, with the script that does it, or `never`, with the clause or the reason. `*` stands for all refusals of the call's error that have no line of their own.
Prints what has no line, what a line names and is not there, and the calls' number; its status is 1 if something is wrong.
"""

import os
import re
import sys

HERE = os.path.dirname(os.path.dirname(os.path.abspath(__file__)))
CRATES = (
    "scope regex metadata theme theme_files style writers grammar_contexts grammar_loader grammar grammar_limits reading_state parsing buffer assets"
).split()
# each error with the file that has it
ERRORS = {
    "ParseScopeError": "syntect_scope/src/repository.rt",
    "ScopeError": "syntect_scope/src/stack.rt",
    "PatternError": "syntect_pattern/src/error.rt",
    "ParsingError": "syntect_grammar_contexts/src/error.rt",
    "ParseSyntaxError": "syntect_base/src/syntax.rt",
    "LoadWithinError": "syntect_base/src/limits.rt",
    "FolderWithinError": "syntect_grammar_limits/src/folder_error.rt",
    "FindWithinError": "syntect_grammar_limits/src/first_line_error.rt",
    "AssetsError": "syntect_assets/src/error.rt",
    "LinesError": "syntect_easy/src/reading.rt",
    "ReadWithinError": "syntect_parsing/src/within.rt",
    "HighlightWithinError": "syntect_easy/src/within.rt",
    "ParseThemeError": "syntect_base/src/theme.rt",
    "LoadingError": "syntect_base/src/loading.rt",
    "MetadataError": "syntect_metadata/src/error.rt",
    "Error": "syntect_grammar/src/error.rt",
}
ITEM = re.compile(r"^(impl\b[^{;]*|(?:    )?(?:pub )?(?:const )?fn [^{;]*)", re.M)
NAME = re.compile(r"\b(" + "|".join(ERRORS) + r")\b(?!::)")


def text_of(path):
    with open(os.path.join(HERE, path)) as file:
        return file.read()


def refusals_of(error):
    """The variants of an error, but for want of memory."""
    body = re.search(rf"pub enum {error} \{{(.*?)^\}}", text_of(f"crates/{ERRORS[error]}"), re.M | re.S).group(1)
    return [name for name in re.findall(r"^    (\w+)", body, re.M) if name != "Memory"]


def owner_of(head):
    """The type of an `impl`, and the trait that it is of."""
    head = re.sub(r"^impl(<.*?>)?\s+(?=[A-Z&])", "", " ".join(head.split()))
    trait, _, name = head.rpartition(" for ")
    return re.match(r"&?([\w:]+)", name).group(1), trait


def calls_in(crate, path):
    """The public functions and methods of a file, each with the error of its answer."""
    owner = trait = error = ""
    text = text_of(path)
    for item in ITEM.finditer(text):
        words = item.group(1)
        if words.startswith("impl"):
            owner, trait = owner_of(words)
            named = re.search(r"type (?:Error|Item) = ([^;]*);", text[item.end() : item.end() + 300])
            error = named.group(1) if named else ""
            continue
        signature = re.split(r"\b(?:requires|ensures)\b", words)[0]
        answer = signature.rpartition("->")[2].replace("Self::Error", error).replace("Self::Item", error)
        name = re.search(r"fn (\w+)", signature).group(1)
        is_method = signature.startswith("    ")
        is_public = signature.lstrip().startswith("pub ") or (is_method and trait.split("<")[0] in ("Iterator", "ParseSettings"))
        found = NAME.findall(answer)
        if is_public and found:
            yield (f"{owner.split('<')[0]}::{name}" if is_method else name), found[-1]


def public_calls():
    """Each call, with its error and its crate."""
    calls = {}
    for crate in [f"syntect_{name}" for name in CRATES] + ["syntect_easy"]:
        folder = f"crates/{crate}/src"
        root = text_of(f"{folder}/lib.rt")
        open_files = {f"{name}.rt" for name in re.findall(r"^pub mod (\w+);", root, re.M)} | {"lib.rt"}
        paths = [os.path.relpath(os.path.join(at, name), HERE) for at, _, names in os.walk(os.path.join(HERE, folder)) for name in names]
        passed_on = {name for path in paths for use in re.findall(r"^pub use ([^;]*);", text_of(path), re.M) for name in re.findall(r"\w+", use)}
        for path in sorted(paths):
            for call, error in calls_in(crate, path):
                if "::" in call or os.path.basename(path) in open_files or call in passed_on:
                    calls[(call, error)] = crate
    return calls


def labels():
    """The labels of all rows."""
    found = set()
    for folder in ["rows", "edits"]:
        place = os.path.join(HERE, "crates/syntect_bench/data", folder)
        for name in os.listdir(place):
            found.add(text_of(f"crates/syntect_bench/data/{folder}/{name}").split("\n", 1)[0].split(":", 1)[0])
    for name in os.listdir(os.path.join(HERE, "crates/syntect_check_rows/src")):
        found.update(re.findall(r'"(R?\d+(?:\.\d+)?(?: [a-z ]+)?)"', text_of(f"crates/syntect_check_rows/src/{name}")))
    return found


def tests():
    """The names of all tests."""
    found = set()
    for crate in os.listdir(os.path.join(HERE, "crates")):
        folder = os.path.join(HERE, "crates", crate, "src")
        if not crate.startswith("syntect_test_"):
            continue
        for name in os.listdir(folder):
            found.update(re.findall(r"#\[test\]\nfn (\w+)", text_of(f"crates/{crate}/src/{name}")))
    return found


def is_there(place, rows, names):
    """Whether a row, a test or a file of the bench is there."""
    kind, _, name = place.partition(" ")
    if kind == "row":
        return name in rows
    if kind == "test":
        return name in names
    return kind == "data" and os.path.exists(os.path.join(HERE, "crates/syntect_bench/data", name))


def main():
    lines = [line.rstrip("\n").split("\t") for line in text_of("docs/refusals.tsv").splitlines() if not line.startswith("#")]
    table = {(call, refusal): where for call, refusal, where in lines}
    calls, rows, names = public_calls(), labels(), tests()
    wrong, used, tried, never = [], set(), 0, 0
    for call, error in sorted(calls):
        for refusal in refusals_of(error):
            key = (call, refusal) if (call, refusal) in table else (call, "*")
            if key not in table:
                wrong.append(f"no line: {call} {refusal}")
                continue
            used.add(key)
            where = table[key]
            if where.startswith(("never: ", "by hand: ")):
                never += where.startswith("never: ")
                continue
            tried += 1
            wrong += [f"{call} {refusal}: no {place}" for place in where.split(", ") if not is_there(place, rows, names)]
    wrong += [f"no such call or refusal: {' '.join(key)}" for key in table if key not in used]
    for line in wrong:
        print(line)
    print(f"{len(calls)} calls: {tried} refusals tested, {never} never answered")
    sys.exit(1 if wrong else 0)


main()
