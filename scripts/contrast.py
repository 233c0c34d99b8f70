#!/usr/bin/env python3
"""Checks the themes of examples/: whether their text can be read, and whether they colour what the grammars name.

    python3 scripts/contrast.py

A rule's contrast is that of its foreground with its background, by WCAG 2; where it names only one of them, the other is the
theme's own. Each rule below 4.5 to 1 is printed, and each below 7 to 1 in ink.json. Then come the scopes of grammars/ that no
rule of a theme matches, though they begin as one of CONVENTIONAL does; a rule that asks for several scopes at once, or leaves
some out, counts for none. The status is 1 where anything is printed but the lowest contrast of each theme.
"""
import json
import pathlib
import re
import sys

TOP = pathlib.Path(__file__).resolve().parent.parent
LEAST = {"dawn.json": 4.5, "dusk.json": 4.5, "ink.json": 7.0}
# What themes for Sublime Text colour by convention. Of punctuation.definition only comments: the rest looks as what it is part
# of. Of meta only patches: other meta scopes say where a text stands.
CONVENTIONAL = """
    comment.block comment.line comment.other punctuation.definition.comment
    string.quoted string.unquoted string.regexp string.interpolated string.other
    constant.numeric constant.language constant.character constant.other
    variable.language variable.parameter variable.function variable.other variable.annotation variable.label
    keyword.control keyword.declaration keyword.generator keyword.operator keyword.other storage.type storage.modifier
    entity.name entity.other support.class support.constant support.function support.macro support.other support.type
    support.variable punctuation.accessor punctuation.section punctuation.separator punctuation.terminator
    markup.heading markup.bold markup.italic markup.strikethrough markup.underline markup.raw markup.quote markup.list
    markup.inserted markup.deleted markup.changed meta.diff.header meta.diff.range meta.annotation
    invalid.illegal invalid.deprecated
""".split()


def luminance(colour):
    """The relative luminance of #rrggbb."""
    parts = [int(colour[at:at + 2], 16) / 255 for at in (1, 3, 5)]
    red, green, blue = (it / 12.92 if it <= 0.04045 else ((it + 0.055) / 1.055) ** 2.4 for it in parts)
    return 0.2126 * red + 0.7152 * green + 0.0722 * blue


def contrast(one, other):
    darker, lighter = sorted((luminance(one), luminance(other)))
    return (lighter + 0.05) / (darker + 0.05)


def begins(scope, prefix):
    return f"{scope}.".startswith(f"{prefix}.")


def conventional_scopes():
    """The scopes of the grammars that themes colour by convention."""
    line = re.compile(r"^\s*(?:- )?(?:scope|meta_scope|meta_content_scope|embed_scope|\d+): (.*)$", flags=re.M)
    texts = [file.read_text(encoding="utf-8") for file in sorted((TOP / "grammars").glob("*.sublime-syntax"))]
    scopes = {scope for text in texts for scopes in line.findall(text) for scope in scopes.split()}
    return sorted(it for it in scopes if any(begins(it, prefix) for prefix in CONVENTIONAL))


def check(name, scopes):
    """Prints a theme's faults and its lowest contrast, and answers whether there are none."""
    rules = json.loads((TOP / "examples" / name).read_text(encoding="utf-8"))["settings"]
    own = next(it["settings"] for it in rules if "scope" not in it)
    faults, contrasts, selectors = [], [], set()
    for rule in rules:
        title = rule.get("name", "the theme's own colours")
        colours = [rule["settings"].get(key, own[key]) for key in ("foreground", "background")]
        if all(re.fullmatch(r"#[0-9a-fA-F]{6}", it) for it in colours):
            contrasts.append((contrast(*colours), title))
            if contrasts[-1][0] < LEAST[name]:
                faults.append(f"{title}: {colours[0]} on {colours[1]} has {contrasts[-1][0]:.2f}, and {LEAST[name]} is asked")
        else:
            faults.append(f"{title}: {' on '.join(colours)} has a colour that is no #rrggbb")
        selectors.update(it.strip() for it in rule.get("scope", "").split(",") if len(it.split()) == 1)
    faults += [f"no rule for {it}" for it in scopes if not any(begins(it, selector) for selector in selectors)]
    least, title = min(contrasts)
    print("\n".join([*(f"{name}: {it}" for it in faults), f"{name}: the lowest contrast is {least:.2f}, of {title}"]))
    return not faults


def main():
    if len(sys.argv) > 1:
        print(__doc__, file=sys.stderr)
        return 2
    scopes = conventional_scopes()
    return 0 if all([check(name, scopes) for name in LEAST]) else 1


if __name__ == "__main__":
    sys.exit(main())
