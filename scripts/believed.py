#!/usr/bin/env python3
"""What has to be believed of the contracts of the main calls: the definitions that they rest on.

    python3 scripts/believed.py             makes docs/BELIEVED.md anew
    python3 scripts/believed.py --check     compares it; the status is 1 where it is another one
    python3 scripts/believed.py --lines     prints the numbers alone
    python3 scripts/believed.py --missing   the definitions of the page that have no line of words above them
    python3 scripts/believed.py --mixed     the definitions that stand under another heading than they should
    python3 scripts/believed.py --why NAME  for each main call, how its contract comes to the definitions of this name

A contract is the clauses `requires` and `ensures` of a function. Its names are resolved by the `ghost use` lines of its file
and its impl, those of a definition by the `use` lines of its file, through what Lib.antt passes on, and names that a binder
holds are none. A declared type counts with its view and its `Value`, if it has a Model; the types of its fields count where
a definition or a clause that was reached names the field. What the invariants of these types rest on is counted apart. What
is not of this repository is named and not followed. Not seen: members of traits at a bound, as `R.remaining` in a clause, and
what a derive or an impl says of equality or copies, as `is_clone`.

In a file of specs/ stands first what public contracts rest on, then, under a heading, what invariants alone rest on, and
under another what proofs and private functions alone use; the status of --mixed is 1 where one stands elsewhere. There a
public function is a `pub fn` of a `pub mod` path, or of what such a path passes on, in a crate that a main
call stands on or in a crate of laws; the members and clauses of the traits of public types are public too.
"""
import collections
import functools
import re
import sys

from citations import closure_of
from definitions import (
    at_path, bare, blocks, brought_in, crate_of, crates, entry, Function, functions, ghost_members, ghosts, model_of,
    module_file, Place, sources, spec, text_of, TOP, TYPE, types_in,
)

PAGE = TOP / "docs" / "BELIEVED.md"
# the headings in a file of specs/
HEADINGS = ["-- ---- What invariants alone rest on ----", "-- ---- For proofs and private functions alone ----"]
# the main calls: a title, and functions by the names of their types, "" for those of none
ENTRIES = [
    ("A search", [("Regex", "search")]),
    ("A line's operations", [("ParseState", "parse_line")]),
    ("A line's pieces", [("HighlightLines", "highlight_line")]),
    ("A grammar's text", [("SyntaxDefinition", "load_from_str")]),
    ("A set of grammars", [("SyntaxSetBuilder", "build")]),
    ("Pages", [
        ("", "highlighted_html_for_string"),
        ("ClassedHTMLGenerator", "new_with_class_style"),
        ("ClassedHTMLGenerator", "parse_html_for_line_which_includes_newline"),
        ("ClassedHTMLGenerator", "finalize"),
        ("", "css_for_theme_with_class_style"),
    ]),
    ("An editor's buffer", [
        ("LineBuffer", "new"),
        ("LineBuffer", "answer"),
        ("LineBuffer", "insert_line"),
        ("LineBuffer", "set_line"),
        ("LineBuffer", "remove_line"),
    ]),
    ("A text or a file in one call", [
        ("Assets", "from_folder"),
        ("Assets", "what_loads"),
        ("Assets", "show_text"),
        ("Assets", "show_file"),
    ]),
    ("One syntax and what it reaches", [
        ("ShelfBuilder", "add_plain_text_syntax"),
        ("ShelfBuilder", "add_from_folder"),
        ("Shelf", "heads"),
        ("Shelf", "set_for"),
    ]),
    ("Parts of a document", [
        ("", "numbered_text"),
        ("", "classed_text"),
        ("", "sheet_for_light_and_dark"),
    ]),
    ("The library for C", [
        ("", "vls_set_new"),
        ("", "vls_set_add_grammar"),
        ("", "vls_set_page"),
        ("", "vls_set_output"),
        ("", "vls_set_find"),
        ("", "vls_doc_new"),
        ("", "vls_doc_line"),
        ("", "vls_doc_reset"),
        ("", "vls_doc_spans"),
    ]),
    ("What is wrong with a grammar", [("", "diagnose")]),
]


# ---- the page ----


def all_definitions():
    for path in sorted((TOP / "crates").glob("*/specs/**/*.antt")):
        yield from spec(path).defs.values()


def definition(place):
    return spec(place.at).defs[place.name]


def lines_of(places):
    return sum(sum(definition(it).lines) for it in places if it.kind == "def")


def link(path, line):
    return f"[{path.name}:{line}](../{path.relative_to(TOP)}#L{line})"


def plain(words):
    """Words of a comment as they stand on a page."""
    parts = words.split("`")
    return "`".join(it if at % 2 else re.sub(r"([<>*_\[\]|])", r"\\\1", it) for at, it in enumerate(parts))


def said_of_type(place):
    """The first sentence of a type's documentation."""
    lines = text_of(place.at)[: model_start(place)].splitlines()
    words = []
    while lines and re.match(r"///|#\[|\s*$", lines[-1]) and (lines[-1].strip() or not words):
        line = lines.pop()
        if line.startswith("///"):
            words.insert(0, line[3:].strip())
    return re.split(r"(?<=\.)\s", " ".join(words))[0]


def model_start(place):
    """Where the line of a type's declaration begins."""
    return next(it.start() for it in TYPE.finditer(bare(place.at)) if it[2] == place.name)


def line_of(place):
    if place.kind == "def":
        return definition(place).line
    model = model_of(place)
    return text_of(place.at).count("\n", 0, model[0] if model else model_start(place)) + 1


def shown(place):
    """A definition's line of the page."""
    words = definition(place).meaning if place.kind == "def" else f"the view of this type: {said_of_type(place)}"
    return f"- `{place.name}`{' - ' + plain(words) if words else ''} ({link(place.at, line_of(place))})"


def heading_of(path):
    """A file's name, and what its first sentence says of it."""
    above = re.match(r"(?:(?:--|//!) ?\S.*\n)*", text_of(path))[0]
    words = re.sub(r"^(?:--|//!) ?", "", above, flags=re.M).replace("\n", " ").strip()
    words = re.match(r"(?:.*?[.:](?= |$))?", words)[0].rstrip(":") or words
    return f"**`{crate_of(path)}`, {path.stem}**" + (f": {plain(words)}" if words else "")


def by_files(places):
    """The lines of some places, by their files, in the order in which these were reached."""
    files = collections.defaultdict(list)
    for place in places:
        files[place.at].append(place)
    for path, those in files.items():
        yield from (heading_of(path), *map(shown, sorted(those, key=line_of)), "")


@functools.lru_cache(maxsize=None)
def entries():
    """The main calls with what they rest on."""
    return [(title, calls, *closure_of([entry(*it) for it in calls])) for title, calls in ENTRIES]


def call_names(calls):
    """Calls by their names, with that of a type once."""
    names, last = [], ""
    for owner, name in calls:
        names.append(f"`{owner}::{name}`" if owner and owner != last else f"`{name}`")
        last = owner
    return ", ".join(names)


def counted(believed, others):
    """How many definitions and views there are, and lines; and how many definitions and lines with those of invariants."""
    count = sum(it.kind == "def" for it in believed)
    more = [it for it in others if it.kind == "def" and it not in believed]
    lines = lines_of(believed)
    return count, len(believed) - count, lines, count + len(more), lines + lines_of(more)


def numbers():
    """A title, calls and numbers for each main call, and for all of them."""
    believed, others = {}, {}
    for title, calls, closure, _ in entries():
        believed.update(dict.fromkeys(closure.items(True)))
        others.update(dict.fromkeys(closure.items(False)))
        yield title, call_names(calls), counted(closure.items(True), closure.items(False))
    yield "All of these", "", counted(believed, others)


def table():
    whole = list(all_definitions())
    lines = sum(sum(it.lines) for it in whole)
    yield f"There are {len(whole)} definitions in `specs/`, of {lines} lines."
    yield ""
    yield "| | Calls | Definitions | Views | Lines of definitions | Share of all lines | With invariants |"
    yield "|---|---|---|---|---|---|---|"
    for title, calls, (count, views, some, more, others) in numbers():
        share = f"{100 * some / lines:.0f} %"
        yield f"| {title} | {calls} | {count} | {views} | {some} | {share} | {more} definitions, {others} lines |"


def one_entry(title, calls, closure, first, seen):
    """The part of the page on a main call; seen are the places that stand above."""
    found = [entry(*it) for it in calls]
    yield f"## {title}"
    yield ""
    several = "s" * (len(calls) > 1)
    yield f"The contract{several}: " + ", ".join(f"`{f.name}` ({link(f.file, f.line)})" for f in found) + "."
    believed = closure.items(True)
    cited = [it for it in believed if it in first]
    above = ", ".join(f"`{it.name}`" for it in cited if it in seen)
    rest = sum(it in seen and it not in cited for it in believed)
    if above or rest:
        yield from ("", f"Listed above: {above + ', and ' if above else ''}{rest} more.")
    parts = [
        (f"Cited by the contract{several}", cited),
        ("What these rest on", [it for it in believed if it not in cited]),
        ("What invariants alone rest on", closure.items(False)),
    ]
    for heading, places in parts:
        new = [it for it in places if it not in seen]
        if new:
            yield from ("", f"### {heading}", "", *by_files(new))
        seen.update(new)


def of_the_kit():
    """The names that are not of this repository, by their files."""
    files = collections.defaultdict(set)
    for _, _, closure, _ in entries():
        for place in closure.reached:
            if place.kind == "kit":
                path, _, name = place.name.rpartition(".")
                files[path].add(name)
    for path in sorted(files):
        yield f"- `{path}`: " + ", ".join(f"`{it}`" for it in sorted(files[path]))


def of_declarations():
    """The types without a view, and constants, by their crates."""
    found = dict.fromkeys(it for _, _, closure, _ in entries() for it in closure.reached)
    names = collections.defaultdict(list)
    for place in found:
        if place.kind == "constant" or place.kind == "type" and not model_of(place):
            line = re.search(rf"\b{place.name}\b", bare(place.at)) if place.kind == "constant" else None
            at = text_of(place.at).count("\n", 0, line.start()) + 1 if line else line_of(place)
            names[crate_of(place.at)].append(f"[`{place.name}`](../{place.at.relative_to(TOP)}#L{at})")
    for crate in sorted(names):
        yield f"- `{crate}`: {', '.join(sorted(names[crate]))}"


INTRODUCTION = """\
# What has to be believed

A proof says that the code does what its contract says. Whether the contract says what one wants is for a reader to judge, and a contract is written in words that are defined elsewhere. This page has, for each main call, all definitions that its contract rests on; nobody needs to read another one of `specs/` to know what the call promises. `DEFINITIONS.md` says the same in words, by notion. The kit and the machine are believed too: [what is believed](NOT_PROMISED.md#what-is-believed).

First come the names that the contract itself cites, and then what these rest on, by file, in the order in which a reader meets the files. A definition stands here once, and a later call refers to it. After each name stands the comment above it, which is a help and no part of the promise. A type that has a *view* stands in contracts for the value that its `Model` gives; the other types are what their declarations say, and are listed at the end. An *invariant* holds of every value of its type, and no caller can break it: one can judge what is promised without it, so what invariants alone rest on stands apart. What is of the standard library and of its crates is named last.

How to read a path: `Rattle.syntect_parsing.specs.syntect_scope.Stack` is `crates/syntect_scope/specs/Stack.antt`, since a crate passes on those that it stands on; `declared.stack.ScopeStack` is the type `ScopeStack` of `src/stack.rt`, and `TheVariants` are the variants of an enum. In a clause `x.old` and `x.new` are what a `&mut` refers to before and after the call, `x.now` what a `&` refers to, `x.entry` and `x.exit` an argument itself before and after; `IfOk r P` says P of an answer and nothing of an error, `OnOk r P` says P where there is an answer, `IfErr` and `OnErr` the same of errors.

Lines are those of definitions, without comments and `use`. The page is made by `python3 scripts/believed.py`, which says how names are found."""


def page():
    seen, lines = set(), [INTRODUCTION, "", *table(), ""]
    for title, calls, closure, first in entries():
        lines += [*one_entry(title, calls, closure, first, seen), ""]
    lines += ["## Types without a view, and constants", "", *of_declarations(), ""]
    lines += ["## Of the standard library and its crates", "", *of_the_kit()]
    return re.sub(r"\n{3,}", "\n\n", "\n".join(lines)) + "\n"


# ---- the other words ----


def print_lines():
    for row in table():
        print(row)


def print_missing():
    found = dict.fromkeys(it for _, _, closure, _ in entries() for it in closure.reached if it.kind == "def")
    believed = {it for _, _, closure, _ in entries() for it in closure.items(True)}
    lacking = [it for it in found if not definition(it).meaning]
    for it in sorted(lacking, key=lambda it: (str(it.at), line_of(it))):
        by = "" if it in believed else " (by invariants alone)"
        print(f"{it.at.relative_to(TOP)}:{line_of(it)}: {it.name}{by}")
    print(f"{len(lacking)} of {len(found)} definitions have no line of words above them; "
          f"{sum(it in believed for it in lacking)} of these count without invariants")


def print_why(name):
    """The ways from main calls to the definitions of a name."""
    for title, _, closure, _ in entries():
        believed = set(list(closure.reached)[: closure.believed])
        for place in closure.reached:
            if place.name.rpartition(".")[2] == name:
                way, at = [], place
                while isinstance(at, Place):
                    way.append(at.name if at.kind == "kit" else f"{crate_of(at.at)}/{at.at.stem}.{at.name}")
                    at = closure.reached[at]
                by = "" if place in believed else ", by invariants alone"
                print(f"{title}{by}: {' <- '.join(way)} <- {at.name}")


def library():
    """The crates that a main call stands on, and those of laws."""
    text = text_of(TOP / "crates.txt")
    uses = {it[1]: it[2].split() for it in re.finditer(r"^(\w+)(?: \S+)*:(.*)$", text, flags=re.M)}
    left = [crate_of(entry(*it).file) for _, calls in ENTRIES for it in calls]
    left += [it for it in crates() if it.endswith(("laws", "closed"))]
    found = set()
    while left:
        name = left.pop()
        if name in crates() and name not in found:
            found.add(name)
            left += uses.get(name, [])
    return sorted(found)


def public_modules(crate):
    """The modules of a crate that are public, from its root on."""
    left = [()]
    while left:
        words = left.pop()
        file = module_file(crate, words)
        if file:
            yield words, file
            left += [words + (it,) for it in re.findall(r"^pub mod (\w+);", bare(file), flags=re.M)]


@functools.lru_cache(maxsize=None)
def public_names():
    """The public types, and the files and names of public functions that have no type."""
    types, names = set(), set()
    for crate in library():
        for words, file in public_modules(crate):
            types.update(Place("type", file, it[2]) for it in TYPE.finditer(bare(file)) if it[0].startswith("pub "))
            names.update((f.file, f.name) for f in functions(file) if f.public and not f.owner)
            for path, passed in brought_in(file).values():
                place = at_path(crate, words, path) if passed else None
                around = at_path(crate, words, path[:-1]) if passed and len(path) > 1 else None
                if isinstance(place, Place):
                    types.add(place)
                elif around and not isinstance(around, Place) and around[0] in crates():
                    names.add((module_file(*around), path[-1]))
    return types, names


def public_functions():
    """The public functions of the library, with the members of traits that public types state."""
    types, names = public_names()
    for crate in library():
        for path in sources(crate):
            for it in functions(path):
                owner = types_in(path, it.owner)
                if it.public and (types.intersection(owner) if it.owner else (path, it.name) in names):
                    yield it
            for trait, owner, start, end in blocks(path):
                texts = [("ghost", it) for _, it in ghost_members(bare(path)[start:end])]
                if trait and trait.split("::")[-1] != "Model" and texts and types.intersection(types_in(path, owner)):
                    yield Function(path, trait, owner, trait, True, 0, "", texts, ghosts(path, start, end))


def wanted_heading(place, believed, others):
    """Under which heading a definition is to stand: 0 is none."""
    return 0 if place in believed else 1 if place in others else 2


def print_mixed():
    """The definitions that stand under another heading than they should, and how many stand where."""
    closure, _ = closure_of(public_functions())
    believed, others = set(closure.items(True)), set(closure.items(False))
    counts, wrong = collections.Counter(), 0
    for it in all_definitions():
        lines = text_of(it.file).splitlines()[: it.line]
        stands = max((n for n, heading in enumerate(HEADINGS, 1) if heading in lines), default=0)
        wanted = wanted_heading(Place("def", it.file, it.name), believed, others)
        counts[wanted] += 1
        if stands != wanted:
            print(f"{it.file.relative_to(TOP)}:{it.line}: {it.name} belongs {('before all headings', *HEADINGS)[wanted]}")
            wrong += 1
    print(f"public contracts rest on {counts[0]} definitions, invariants alone on {counts[1]} more, and {counts[2]} are for the inside alone")
    return 1 if wrong else 0


def main():
    words = sys.argv[1:]
    said = {"--lines": print_lines, "--missing": print_missing, "--mixed": print_mixed}
    if len(words) == 2 and words[0] == "--why":
        print_why(words[1])
    elif len(words) == 1 and words[0] in said:
        return said[words[0]]() or 0
    elif words == ["--check"]:
        if not PAGE.is_file() or text_of(PAGE) != page():
            print("docs/BELIEVED.md is not up to date: python3 scripts/believed.py", file=sys.stderr)
            return 1
    elif words:
        print(__doc__, file=sys.stderr)
        return 2
    else:
        PAGE.write_text(page(), encoding="utf-8")
    return 0


if __name__ == "__main__":
    sys.exit(main())
