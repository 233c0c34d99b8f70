"""The definitions of specs/ and the sources: what stands where, and what a path leads to. For scripts/believed.py."""
import collections
import functools
import pathlib
import re
import sys

TOP = pathlib.Path(__file__).resolve().parent.parent
NAME = r"[^\s(){}\[\],;.\"λ⟦⟧]+"
TOKEN = re.compile(rf'"(?:\\.|[^"\\])*"|\[\]|[(){{}}\[\],;λ⟦⟧]|\.?{NAME}(?:\.{NAME})*|\.')
HEAD = re.compile(r"( *)((?:abbrev |unfoldable |opaque |pub )*)(?:(data|record) )?(\S+)(?=[ \n])")

Definition = collections.namedtuple("Definition", "file name line kind lines meaning units makers bound")
# a place in the logic or in the sources: what it is, and where it stands
Place = collections.namedtuple("Place", "kind at name")


@functools.lru_cache(maxsize=None)
def text_of(path):
    return path.read_text(encoding="utf-8")


@functools.lru_cache(maxsize=None)
def crates():
    return {it.name: it for it in (TOP / "crates").iterdir() if it.is_dir()}


# ---- definitions ----


def braced(text):
    """The names of a list in braces, with what they are called here."""
    for part in text.split(","):
        words = part.split(" as ")
        if part.strip():
            yield words[-1].strip(), words[0].strip()


def uses_in(text, start):
    """The names that lines of use bring in, each with its path."""
    found = {}
    for use in re.finditer(rf"^ *{start}(\S+?)(?:\.\{{([^}}]*)\}})?(?: as (\S+?))?;?$", text, flags=re.M):
        path = tuple(use[1].split("."))
        if use[2] is None:
            found[use[3] or path[-1]] = path
        for name, old in braced(use[2] or ""):
            found[name] = path + (old,)
    return found


def spoken(uses):
    """The same by the words of a text: ◌+◌ is written as +."""
    return {word: path for name, path in uses.items() for word in name.split("◌") if word}


def comment_above(lines, at, indent):
    """The words above a line, without headings of parts."""
    words = []
    while at > 0 and lines[at - 1].startswith(indent + "-- ") and not re.match(r" *-- ----", lines[at - 1]):
        at -= 1
        words.insert(0, lines[at].strip()[3:].strip())
    return " ".join(words)


def labels_bound(text):
    """A record's or a type's text with a mark before each label, and the labels."""
    head, where, body = text.partition("where\n")
    labels = []

    def mark(line):
        names = line[2].split()
        labels.extend(names)
        return line[1] + "".join(f"\0{it} " for it in names) + ", "

    least = min((len(it) - len(it.lstrip()) for it in body.splitlines() if it.strip()), default=0)
    return head + where + re.sub(rf"^( {{{least}}})(?:pub )?(\S[^:(){{}}\n]*?) :(?=\s)", mark, body, flags=re.M), labels


def parted(unit):
    """An equation, and each line of what stands under its where."""
    first, _, local = unit.partition("\n  where\n")
    return [first, *re.split(r"\n(?= {4}\S)", local)] if local else [first]


class Spec:
    """A file of definitions."""

    def __init__(self, path):
        self.path, self.defs, self.makers = path, {}, {}
        text = text_of(path)
        self.passed = uses_in(text, "pub use ")
        self.uses = spoken({**uses_in(text, "(?:pub )?use "), **self.passed})
        self.read(text)
        for it in self.defs.values():
            self.makers.update((name, it) for name in it.makers)
        self.words = {word: name for name in [*self.makers, *self.defs] for word in name.split("◌") if word}

    def read(self, text):
        """Parts the lines by the modules that they stand in: each begins at the module's indent, and goes on below it."""
        lines, around = text.splitlines(), [("", "")]
        at, last = 0, None
        while at < len(lines):
            line = lines[at]
            end = at + 1
            indent = line[: len(line) - len(line.lstrip())]
            if not line.strip() or line.lstrip().startswith("--"):
                at = end
                continue
            while len(indent) < len(around[-1][0]):
                around.pop()
            if re.match(r" *(?:module .*where|(?:abbrev )?mutual)$", line):
                below = lines[end] if end < len(lines) else ""
                around.append((re.match(" *", below)[0], around[-1][1] + line.replace("where", "").replace("mutual", "")))
                at = end
                continue
            while end < len(lines) and (not lines[end].strip() or len(re.match(" *", lines[end])[0]) > len(indent)):
                end += 1
            last = self.take(lines, at, end, around[-1], last)
            at = end

    def take(self, lines, at, end, around, last):
        """Takes one item: a new definition, or an equation of one."""
        unit = "\n".join(re.sub(r"(^|\s)--.*", "", it) for it in lines[at:end]).strip()
        count = sum(1 for it in lines[at:end] if it.strip() and not it.lstrip().startswith("--"))
        if re.match(r"(?:pub )?(?:use|mod) |infix[lr]? ", unit):
            return last
        head = HEAD.match(unit + "\n")
        makers, kind = [], head[3] or ("signature" if head[2] or re.match(r"\S+ :\s", unit) else "")
        if kind:
            if head[3]:
                unit, makers = labels_bound(unit)
            outer = [re.sub(r"^\s*(?:abbrev |module )*_?", "", around[1])]
            words = comment_above(lines, at, around[0])
            if not words and at and re.match(r" *(?:abbrev )?mutual$", lines[at - 1]):
                words = comment_above(lines, at - 1, re.match(" *", lines[at - 1])[0])
            last = Definition(self.path, head[4], at + 1, kind, [count], words, [("signature", unit[head.end(4):])],
                              makers if kind == "data" else [], outer)
            self.defs[last.name] = last
            return last
        owner = self.defs.get(unit.split()[0], last)
        owner.lines.append(count)
        owner.units.extend(("equation", it) for it in parted(unit))
        return owner


@functools.lru_cache(maxsize=None)
def spec(path):
    return Spec(path)


# ---- paths of the logic ----


@functools.lru_cache(maxsize=None)
def resolved(path):
    """The place of a path that begins with Rattle, or None if it is not of this repository."""
    if len(path) < 3 or path[0] != "Rattle" or path[1] not in crates() or path[2] != "specs":
        return None
    place = Place("specs", crates()[path[1]] / "specs", "")
    for word in path[3:]:
        place = place and below(place, word)
    if place is None:
        print(f"believed.py: nothing is at {'.'.join(path)}", file=sys.stderr)
    return place


@functools.lru_cache(maxsize=None)
def passed_on(folder):
    lib = folder / "Lib.antt"
    return uses_in(text_of(lib), "pub use ") if lib.is_file() else {}


def below(place, word):
    """What a place has under a name."""
    kind, at, name = place
    if kind == "specs":
        if word == "declared":
            return Place("declared", at.parent / "src", "")
        if word in passed_on(at):
            return resolved(passed_on(at)[word])
        if (at / f"{word}.antt").is_file():
            return Place("module", at / f"{word}.antt", "")
        return Place("specs", at / word, "") if (at / word).is_dir() else None
    if kind == "module":
        return in_module(at, word)
    if kind == "declared":
        if (at / f"{word}.rt").is_file():
            return Place("declared", at / word, "")
        source = at.with_suffix(".rt") if at.name != "src" else at / "lib.rt"
        if word == "TheConstants":
            return Place("constants", source, "")
        return declared(source, word) if source.is_file() else None
    if kind == "constants":
        return Place("constant", at, word)
    return place


def in_module(path, word):
    it = spec(path)
    if word in it.defs:
        return Place("def", path, word)
    if word in it.makers:
        return Place("maker", path, it.makers[word].name)
    return resolved(it.passed[word]) if word in it.passed else None


# ---- sources ----

SOURCE = re.compile(r'r(#*)".*?"\1|"(?:\\.|[^"\\])*"|b?\'(?:\\.[^\'\n]*|[^\'\\\n])\'|//[^\n]*', re.S)
TYPE = re.compile(r"^(?:pub(?:\([^)]*\))? )?(struct|enum|trait|type|union) (\w+)", re.M)


@functools.lru_cache(maxsize=None)
def bare(path):
    """A source without its comments."""
    return SOURCE.sub(lambda it: " " * len(it[0]) if it[0].startswith("//") else it[0], text_of(path))


def closing(text, at):
    """Where the brace at a place is closed."""
    depth = 0
    for brace in re.compile(r'"(?:\\.|[^"\\])*"|[{}()]').finditer(text, at):
        depth += {"{": 1, "(": 1, "}": -1, ")": -1}.get(brace[0], 0)
        if depth == 0:
            return brace.end()
    return len(text)


def declared(path, name):
    """The type of a name in a file."""
    found = any(it[2] == name for it in TYPE.finditer(bare(path)))
    return Place("type", path, name) if found else None


@functools.lru_cache(maxsize=None)
def body_of(place):
    """A type's text, from its name on."""
    text = bare(place.at)
    start = next(it.end() for it in TYPE.finditer(text) if it[2] == place.name)
    stop = re.compile(r"[{(;=]").search(text, start)
    end = closing(text, stop.start()) if stop[0] in "{(" else text.find(";", start)
    return text[start:end]


def members(place):
    """The fields or variants of a type, each with its text; a type without names is one of its own."""
    parts = re.split(r"^    (?:pub(?:\([^)]*\))? )?(?=\w)", body_of(place), flags=re.M)
    for part in parts[1:]:
        name = re.match(r"\w+", part)[0]
        if name != "ghost":
            yield name, part[len(name):]
    if len(parts) == 1 or not parts[0].strip().endswith("{"):
        yield "", parts[0]


@functools.lru_cache(maxsize=None)
def blocks(path):
    """The impls of a file: their heads and where they begin and end."""
    text = bare(path)
    found = []
    for it in re.finditer(r"^(?:unsafe )?impl\b([^{;]*)\{", text, flags=re.M):
        head = re.sub(r"^\s*<(?:[^<>]|<[^<>]*>)*>", "", it[1]).split(" where ")[0].strip()
        trait, _, owner = head.rpartition(" for ")
        owner = re.match(r"&?(?:'\w+ )?(?:mut )?(?:\w+::)*(\w+)", owner)
        end = closing(text, it.end() - 1)
        found.append((trait.split("<")[0].strip(), owner[1] if owner else "", it.start(), end))
    return found


@functools.lru_cache(maxsize=None)
def ghosts(path, start, end):
    """The names that ghost use lines bring in: those of the file, and those of the block."""
    text = bare(path)
    outer = re.sub(r"^ +ghost use .*", "", text, flags=re.M)
    return spoken({**uses_in(outer, "ghost use "), **uses_in(text[start:end], "ghost use ")})


def ghost_members(text):
    """The ghost members of a block, by name: those that are stated, and not those that prove something."""
    for it in re.finditer(r"^ *(?:pub )?ghost (\w+) ?[:=] ?\{", text, flags=re.M):
        yield it[1], text[it.end(): closing(text, it.end() - 1) - 1]


@functools.lru_cache(maxsize=None)
def model_of(place):
    """Where the Model of a type begins, its members, and the names that these have."""
    for trait, owner, start, end in blocks(place.at):
        if trait.split("::")[-1] == "Model" and owner == place.name:
            return start, dict(ghost_members(bare(place.at)[start:end])), ghosts(place.at, start, end)
    return None


# ---- functions ----

Function = collections.namedtuple("Function", "file name owner trait public line signature clauses names")
CLAUSE = re.compile(r"(?:^|\s)(requires|ensures|ghost|decreases)\b[^{};]*$")


def clauses_from(text, at):
    """The signature from a place on, and the clauses behind it."""
    signature, clauses, start = "", [], at
    while True:
        stop = re.compile(r"[{;(\[]").search(text, at)
        if not stop:
            return signature, clauses
        if stop[0] in "([":
            at = closing(text, stop.start()) if stop[0] == "(" else text.find("]", stop.start()) + 1
            continue
        clause = CLAUSE.search(text[start:stop.start()])
        if not clauses and not signature:
            signature = text[start: start + clause.start() if clause else stop.start()]
        if stop[0] == ";" or not clause:
            return signature, clauses
        at = start = closing(text, stop.start())
        clauses.append((clause[1], text[stop.end(): at - 1]))


@functools.lru_cache(maxsize=None)
def functions(path):
    """The functions of a file that have contracts."""
    text, found = bare(path), []
    for it in re.finditer(r"^( *)(pub(?:\([^)]*\))? )?(?:const |unsafe |extern \S+ )*fn (\w+)", text, flags=re.M):
        around = [b for b in blocks(path) if b[2] < it.start() < b[3]]
        trait, owner, start, end = around[0] if around else ("", "", 0, 0)
        if len(it[1]) > (4 if around else 0):
            continue
        signature, clauses = clauses_from(text, it.end())
        found.append(Function(path, it[3], owner, trait, it[2] == "pub " or bool(trait), text.count("\n", 0, it.start()) + 1,
                              signature, [c for c in clauses if c[0] in ("requires", "ensures", "ghost")],
                              ghosts(path, start, end)))
    return found


@functools.lru_cache(maxsize=None)
def sources(crate):
    return sorted((crates()[crate] / "src").rglob("*.rt"))


def crate_of(path):
    return path.relative_to(TOP / "crates").parts[0]


def entry(owner, name):
    """The main call of a type."""
    found = [f for crate in sorted(crates()) for path in sources(crate) for f in functions(path)
             if f.public and not f.trait and (f.owner, f.name) == (owner, name)]
    if len(found) != 1:
        sys.exit(f"believed.py: {len(found)} functions are named {owner}::{name}; ENTRIES has to be changed")
    return found[0]


# ---- types that a source names ----


def trees(text, front=()):
    """The names that a use line's tree brings in, with their paths."""
    depth, part, parts = 0, "", []
    for char in text + ",":
        depth += {"{": 1, "}": -1}.get(char, 0)
        if char == "," and depth == 0:
            parts.append(part.strip())
            part = ""
        else:
            part += char
    for part in filter(None, parts):
        head, brace, rest = part.partition("{")
        if brace:
            yield from trees(rest[:-1], front + tuple(filter(None, head.strip().split("::"))))
            continue
        path, _, name = part.partition(" as ")
        words = front + tuple(path.split("::"))
        words = words[:-1] if words[-1] == "self" else words
        yield name or words[-1], words


@functools.lru_cache(maxsize=None)
def brought_in(path):
    """What a source's use lines bring in, and whether they pass it on."""
    found = {}
    for it in re.finditer(r"^(pub )?use ([^;]*);", bare(path), flags=re.M):
        for name, words in trees(" ".join(it[2].split())):
            found[name] = (words, bool(it[1]))
    return found


def module_file(crate, words):
    """The file of a module of a crate."""
    source = crates()[crate] / "src"
    roots = [source / "lib.rt", source / "main.rt"]
    files = [source.joinpath(*words).with_suffix(".rt"), source.joinpath(*words) / "mod.rt"] if words else roots
    return next((it for it in files if it.is_file()), None)


@functools.lru_cache(maxsize=None)
def inner_module(crate, words):
    """What a module that stands whole in another one's file brings in, by name; None where there is no such module."""
    file = module_file(crate, words[:-1]) if words else None
    found = file and re.search(rf"^pub mod {words[-1]} \{{\n(.*?)^\}}", bare(file), flags=re.M | re.S)
    if not found:
        return None
    uses = re.findall(r"^ +pub use ([^;]*);", found[1], flags=re.M)
    return {name: path for it in uses for name, path in trees(" ".join(it.split()))}


@functools.lru_cache(maxsize=None)
def item(crate, words, name):
    """What a module has under a name: a type, or a module as its crate and path."""
    file = module_file(crate, words)
    if file is None:
        path = (inner_module(crate, words) or {}).get(name)
        return path and at_path(crate, words, path)
    if inner_module(crate, words + (name,)) is not None:
        return crate, words + (name,)
    found = declared(file, name)
    if found:
        return found
    if module_file(crate, words + (name,)) and re.search(rf"\bmod {name};", bare(file)):
        return crate, words + (name,)
    path = brought_in(file).get(name, (None,))[0]
    if path is None or path[0] == name and name not in crates():
        return None
    return at_path(crate, words, path)


def at_path(crate, words, path):
    """What a path of a module leads to."""
    head, rest = path[0], path[1:]
    place = (crate, ()) if head == "crate" else (crate, words) if head == "self" else (crate, words[:-1])
    if head not in ("crate", "self", "super"):
        place = (head, ()) if head in crates() else item(crate, words, head)
    for word in rest:
        if isinstance(place, Place) or place is None or place[0] not in crates():
            break
        place = item(place[0], place[1], word)
    return place


@functools.lru_cache(maxsize=None)
def types_in(path, text, owner=""):
    """The types of this repository that a source's text names."""
    crate = crate_of(path)
    words = path.relative_to(crates()[crate] / "src").with_suffix("").parts
    words = () if words in (("lib",), ("main",)) else words[:-1] if words[-1] == "mod" else words
    found = []
    for name in re.findall(r"[A-Za-z_]\w*(?:::\w+)*", text):
        name = owner if name == "Self" else name
        place = at_path(crate, words, tuple(name.split("::"))) if re.search(r"[A-Z]", name) else None
        if isinstance(place, Place):
            found.append(place)
    return tuple(found)
