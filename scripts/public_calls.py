#!/usr/bin/env python3
"""Which public calls can be refused for want of memory, and whether each is tried.

    python3 scripts/public_calls.py

Reads the sources of the library's crates for public functions, methods and copies whose answer has a refusal that can be want
of memory, and compares them with the calls of the crates of trials (the constants NAMES there) and with docs/calls.tsv, which
names the others, each with why it isn't among them. Prints what stands nowhere, and what docs/calls.tsv names that is no such
call; its status is 1 if there is something.
"""

import os
import re
import sys

HERE = os.path.dirname(os.path.dirname(os.path.abspath(__file__)))
CRATES = (
    "scope regex metadata theme theme_files style writers operations grammar_contexts grammar_loader grammar grammar_limits reading_state parsing buffer blocks assets"
).split()
TRIALS = ["calls", "sets", "faults"]
REFUSALS = re.compile(
    r"\b(AllocError|ParseScopeError|ScopeError|ParsingError|ParseSyntaxError|LoadWithinError|FolderWithinError|FindWithinError|ReadWithinError|HighlightWithinError|ParseThemeError|LoadingError|MetadataError|"
    r"PatternError|SettingsError|AssetsError|LinesError|Error)\b"
)
ITEM = re.compile(r"^(?:impl\b[^{;]*|(?:    )?(?:pub )?(?:const )?fn [^{;]*|#\[derive\([^)]*\)\]\n(?:///.*\n)*pub (?:struct|enum) \w+)", re.M)


def folders():
    """The crates' names and folders."""
    for name in [f"syntect_{crate}" for crate in CRATES] + ["syntect_easy"]:
        yield name, os.path.join(HERE, "crates", name, "src")


def open_modules(source):
    """The files of a crate's public modules and of its root."""
    with open(os.path.join(source, "lib.rt")) as file:
        names = re.findall(r"^pub mod (\w+);", file.read(), re.M)
    for name in ["lib", *names]:
        yield os.path.join(source, name + ".rt")


def private_modules(source):
    """The files of the other modules, of which the methods of public types are public too."""
    known = set(open_modules(source))
    for name in sorted(os.listdir(source)):
        path = os.path.join(source, name)
        if name.endswith(".rt") and path not in known:
            yield path


def type_of(head):
    """The type of an `impl`, and whether it is of the trait of copies, or of another one."""
    head = re.sub(r"^impl(<[^>]*>)?\s*", "", head).strip()
    trait, _, name = head.rpartition(" for ")
    return re.match(r"&?([\w:]+)", name).group(1), trait


def calls_in(path, methods_alone):
    """The calls of a file that can be refused."""
    with open(path) as file:
        text = file.read()
    owner = trait = ""
    for item in ITEM.finditer(text):
        words = item.group(0)
        if words.startswith("impl"):
            owner, trait = type_of(words)
            if trait == "Clone":
                yield f"{owner}::clone"
            continue
        if words.startswith("#["):
            name = words.split()[-1]
            if "Clone" in words and "Copy" not in words:
                yield f"{name}::clone"
            continue
        signature = re.split(r"\b(?:requires|ensures)\b", words)[0]
        answer = signature.rpartition("->")[2] if "->" in signature else ""
        name = re.search(r"fn (\w+)", signature).group(1)
        is_public = signature.lstrip().startswith("pub ") or trait in ("Iterator", "ParseSettings")
        if not is_public or not REFUSALS.search(answer):
            continue
        if signature.startswith("    "):
            yield f"{owner.split('<')[0]}::{name}"
        elif not methods_alone:
            yield name


def public_calls():
    """Each call with its crate."""
    found = {}
    for crate, source in folders():
        for path in open_modules(source):
            found.update({call: crate for call in calls_in(path, False)})
        for path in private_modules(source):
            found.update({call: crate for call in calls_in(path, True)})
    return found


def tried_calls():
    """The names in the crates of trials, without what stands in brackets behind them."""
    tried = set()
    for crate in TRIALS:
        source = os.path.join(HERE, "crates", f"syntect_check_{crate}", "src")
        for name in os.listdir(source):
            with open(os.path.join(source, name)) as file:
                for names in re.findall(r"^pub const NAMES: \[&str; \d+\] = \[(.*?)\];", file.read(), re.M | re.S):
                    tried.update(re.findall(r'"([^"(]*)(?:\([^"]*)?"', names))
    return tried


def main():
    with open(os.path.join(HERE, "docs", "calls.tsv")) as file:
        others = dict(line.rstrip("\n").split("\t", 1) for line in file if not line.startswith("#"))
    public, tried = public_calls(), tried_calls()
    lacking = sorted(f"{crate}: {call}" for call, crate in public.items() if call not in tried and call not in others)
    stale = sorted(call for call in others if call not in public or call in tried)
    for call in lacking:
        print(f"not tried: {call}")
    for call in stale:
        print(f"in docs/calls.tsv, and no such call: {call}")
    print(f"{len(public)} public calls, {len(tried & set(public))} tried, {len(others)} others; tried beside them: "
          + (", ".join(sorted(tried - set(public))) or "none"))
    sys.exit(1 if lacking or stale else 0)


main()
