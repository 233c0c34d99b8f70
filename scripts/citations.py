"""What contracts and definitions cite, and all that they rest on so. For scripts/believed.py."""
import collections
import functools
import re

from definitions import (
    below, body_of, crates, ghost_members, ghosts, in_module, members, model_of, NAME, Place, resolved, spec, TOKEN,
    types_in,
)

# ---- what a text cites ----


class Reader:
    """Reads a text of the logic: which names it cites that no binder holds, and which fields."""

    def __init__(self, lookup, bound=()):
        self.lookup, self.cited, self.fields = lookup, [], set()
        self.frames = [(set(bound), [])]

    def is_bound(self, word):
        return any(word in frame[0] for frame in self.frames)

    def cite(self, chain):
        words = chain.strip("«»").split(".")
        if words[0] == "":
            self.fields.update(words)
        elif not self.is_bound(words[0]):
            self.cited += [(it,) for it in words[0].split("◌") if it] if "◌" in words[0] else [tuple(words)]
            self.fields.update(words[1:])
        else:
            self.fields.update(words[1:])

    def bind_left(self, tokens):
        """The names on the left of an equation, but for those that make a value."""
        for token in tokens[1:]:
            place = self.lookup((token,)) if re.fullmatch(NAME, token) else None
            if re.fullmatch(NAME, token) and (place is None or place.kind == "def" and token.strip("◌")[0].isalpha()):
                self.frames[0][0].add(token)

    def pattern(self, tokens, at):
        """The names that stand at a place, one or several in brackets, and the place behind them."""
        end, depth = at, 0
        while end < len(tokens):
            depth += (tokens[end] in "({") - (tokens[end] in ")}")
            end += 1
            if depth <= 0:
                break
        return [it for it in tokens[at:end] if re.fullmatch(NAME, it)], end

    def group(self, tokens, at):
        """The names of a binder that begins behind a bracket."""
        names = []
        while at < len(tokens) and re.fullmatch(NAME, tokens[at]) and tokens[at] not in (":", "="):
            names.append(tokens[at])
            at += 1
        return (names, at + 1) if names and at < len(tokens) and tokens[at] == ":" else ([], at)

    def read(self, text, kind="term"):
        tokens = [it for it in TOKEN.findall(text) if not it.startswith('"')]
        if kind == "equation" and "=" in tokens:
            self.bind_left(tokens[: tokens.index("=")])
        at = 0
        while at < len(tokens):
            at = self.step(tokens, at)

    def step(self, tokens, at):
        token = tokens[at]
        if token == "let":
            names, end = self.pattern(tokens, at + 1)
            self.frames[-1][0].update(names)
            return end
        if token == "(" or re.fullmatch(NAME, token):
            names, end = self.pattern(tokens, at)
            if tokens[end:end + 1] == ["←"]:
                self.frames[-1][0].update(names)
                return end + 1
        if token in "({[⟦":
            names, after = self.group(tokens, at + 1) if token in "({" else ([], at)
            self.frames.append((set(), names))
            return after if names else self.label(tokens, at)
        if token in ")}]⟧":
            if len(self.frames) > 1:
                self.frames[-2][0].update(self.frames.pop()[1])
        elif token == "λ":
            return self.lambda_names(tokens, at + 1)
        elif token == ";":
            return self.label(tokens, at)
        elif token[0] == "\0":
            self.frames[-1][0].add(token[1:])
        elif token == "do":
            self.cited += [(">>=",), (">>",)]
        elif token not in (",", "."):
            self.cite(token)
        return at + 1

    def label(self, tokens, at):
        """Behind a brace or a semicolon: a field's name, or that of an argument."""
        if at + 2 < len(tokens) and tokens[at] in "{;" and tokens[at + 2] == "=":
            self.fields.add(tokens[at + 1])
            return at + 3
        return at + 1

    def lambda_names(self, tokens, at):
        while at < len(tokens) and tokens[at] != ".":
            name, dot, rest = tokens[at].partition(".")
            if re.fullmatch(NAME, name):
                self.frames[-1][0].add(name)
            if name == "(":
                names, after = self.group(tokens, at + 1)
                self.frames[-1][0].update(names)
                at = after if names else at
            if dot:
                self.cite(rest)
                return at + 1
            at += 1
        return at + 1


def by_paths(names, source=None):
    """Looks words up by the names that use lines bring in, or else among the types of a source."""
    def lookup(words):
        path = names.get(words[0])
        if path:
            return found_at(path, words[1:])
        types = types_in(source, words[0]) if source and words[0].isidentifier() else ()
        return types[0] if types else None
    return lookup


def found_at(path, rest):
    place = resolved(path)
    if place is None:
        return Place("kit", None, ".".join(path + (rest if path[-1][:1].isupper() else ()))) if is_of_kit(path) else None
    for word in rest:
        if place is None or place.kind not in ("module", "specs", "declared", "constants"):
            break
        place = below(place, word)
    return place


def is_of_kit(path):
    return not (len(path) > 1 and path[0] == "Rattle" and path[1] in crates())


def in_spec(path):
    """Looks words up in a file of definitions."""
    it, outer = spec(path), by_paths(spec(path).uses)

    def lookup(words):
        if words[0] in it.words:
            return in_module(path, it.words[words[0]])
        return outer(words)
    return lookup


def kept(places):
    """The places that are definitions, types or names of the kit, each once."""
    found = {}
    for place in places:
        if place is None or place.kind in ("module", "specs", "declared", "constants"):
            continue
        found[Place("def", place.at, place.name) if place.kind == "maker" else place] = None
    return list(found)


@functools.lru_cache(maxsize=None)
def cites(place):
    """What a definition or a type cites, and the fields that it names."""
    if place.kind in ("kit", "constant"):
        return [], set()
    if place.kind == "type":
        return cites_of_type(place)
    it, lookup = spec(place.at).defs[place.name], in_spec(place.at)
    outer = Reader(lookup)
    for text in it.bound:
        outer.read(text)
    cited, fields = list(outer.cited), set(outer.fields)
    for kind, text in it.units:
        reader = Reader(lookup, outer.frames[0][0])
        reader.read(text, kind)
        cited += reader.cited
        fields |= reader.fields
    return kept(map(lookup, cited)), fields


def cites_of_type(place):
    """What the view of a type cites."""
    _, stated, names = model_of(place) or (0, {}, {})
    return cites_of_texts([stated[it] for it in ("Value", "view") if it in stated], names, place, ())


def cites_of_invariant(place):
    """What the invariant of a type cites: that of its Model, or its ghost fields."""
    model = model_of(place)
    if model:
        return cites_of_texts([model[1][it] for it in ("invariant",) if it in model[1]], model[2], place, ())
    texts = [it for _, it in ghost_members(body_of(place))]
    return cites_of_texts(texts, ghosts(place.at, 0, 0), place, [name for name, _ in members(place)])


def cites_of_texts(texts, names, place, bound):
    lookup, cited, fields = by_paths(names, place.at), [], set()
    for text in texts:
        reader = Reader(lookup, bound)
        reader.read(text)
        cited += reader.cited
        fields |= reader.fields
    return kept(map(lookup, cited)), fields


def cites_of_function(it):
    """What a contract cites: by its clauses, and the types of those of its values that they name."""
    lookup, cited, fields, words = by_paths(it.names, it.file), [], set(), set()
    parameters = re.findall(r"[(,]\s*(?:mut )?(\w+): ([^,]*(?:<[^()]*>)?)", it.signature)
    for _, text in it.clauses:
        reader = Reader(lookup, {name for name, _ in parameters})
        reader.read(text)
        cited += reader.cited
        fields |= reader.fields
        words.update(re.findall(r"\w+", text))
    types = [text for name, text in parameters if name in words]
    types += [it.owner] if "self" in words and it.owner else []
    types += [it.signature.rpartition("->")[2]] if "result" in words and "->" in it.signature else []
    return kept(map(lookup, cited)), [t for text in types for t in types_in(it.file, text, it.owner)], fields


def named_members(place, fields):
    """The types of those members of a type that have these names."""
    return [it for name, text in members(place) if not name or name in fields
            for it in types_in(place.at, text, place.name)]


class Closure:
    """What some contracts rest on, in the order in which it is reached, and behind it what invariants rest on."""

    def __init__(self):
        self.reached, self.waiting, self.fields = {}, collections.defaultdict(list), set()
        self.believed = None

    def add(self, wanted, fields, whence):
        """Takes in places and fields, and all that they rest on."""
        queue = collections.deque((place, whence) for place in wanted)
        queue.extend(self.of_fields(fields))
        while queue:
            place, whence = queue.popleft()
            if place in self.reached:
                continue
            self.reached[place] = whence
            cited, fields = cites(place)
            queue.extend((it, place) for it in cited)
            queue.extend(self.of_fields(fields))
            if place.kind == "type":
                queue.extend(self.of_members(place))

    def of_members(self, place):
        """The types of the members that were named; the others wait, but for those that a view hides."""
        if model_of(place):
            yield from ((it, place) for it in named_members(place, cites(place)[1]))
            return
        for name, text in members(place):
            for it in types_in(place.at, text, place.name):
                if not name or name in self.fields:
                    yield it, place
                else:
                    self.waiting[name].append((it, place))

    def of_fields(self, fields):
        for name in sorted(fields - self.fields):
            self.fields.add(name)
            yield from self.waiting.pop(name, [])

    def add_invariants(self):
        """Takes in what the invariants of the types rest on; what was reached before is what is believed."""
        self.believed, opened = len(self.reached), set()
        while True:
            types = [it for it in self.reached if it.kind == "type" and it not in opened]
            if not types:
                break
            for it in types:
                opened.add(it)
                cited, fields = cites_of_invariant(it)
                self.add(cited + named_members(it, fields), fields, it)

    def items(self, believed):
        """The definitions and views that are believed, or those that invariants alone rest on."""
        places = list(self.reached)
        places = places[: self.believed] if believed else places[self.believed:]
        return [it for it in places if it.kind == "def" or it.kind == "type" and model_of(it)]

    def add_function(self, it):
        cited, types, fields = cites_of_function(it)
        self.add(cited + types, fields, it)
        return cited


def closure_of(calls):
    """What some functions rest on, and what their contracts cite themselves."""
    closure, first = Closure(), {}
    for it in calls:
        first.update(dict.fromkeys(closure.add_function(it)))
    closure.add_invariants()
    return closure, list(first)
