"""A lexer and a formatter for programs on Pygments, as Sphinx is one: the colours are those of a set and a theme.

    >>> from pygments import highlight
    >>> from vulsangi.pygments import VulsangiFormatter, VulsangiLexer
    >>> lexer = VulsangiLexer(language="rs", theme="dusk", folders=["grammars", "themes"])
    >>> page = highlight("let x = 1;\\n", lexer, VulsangiFormatter())

The lexer's tokens carry their styles in their types. The formatter writes those of this lexer with inline styles, and the
tokens of any other as `HtmlFormatter` does, whose subclass it is; other formatters show this lexer's text without colours.
In a `conf.py` of Sphinx:

    from sphinx.highlighting import PygmentsBridge
    from vulsangi.pygments import VulsangiFormatter, lexer_for

    PygmentsBridge.html_formatter = VulsangiFormatter

    def setup(app):
        app.add_lexer("rust", lexer_for("rs", "dusk", ["grammars", "themes"]))
"""

import html
import re
from typing import IO, Any, Iterable, Iterator, Optional, Sequence, Tuple, Type

from pygments.formatters.html import HtmlFormatter
from pygments.lexer import Lexer
from pygments.token import Token

from ._set import PathLike, highlight

__all__ = ["VulsangiFormatter", "VulsangiLexer", "lexer_for"]

# the type of all tokens of the lexer; the first one of a text has the colour behind it, and no text
STYLED = Token.Vulsangi
_PAGE = re.compile(r'<pre style="([^"]*)">\n')
_PIECE = re.compile(r'<span style="([^"]*)">([^<]*)</span>')
_PLAIN = {"font-weight:bold": "Bold", "font-style:italic": "Italic", "text-decoration:underline": "Underline"}
_COLOURS = {"background-color:#": "B", "color:#": "C"}
_RULES = {**{name: rule for rule, name in _PLAIN.items()}, **{name: rule for rule, name in _COLOURS.items()}}


def _type_of(style: str) -> Any:
    """The token type of an inline style, which has a name a rule."""
    found = STYLED
    for rule in filter(None, style.split(";")):
        if rule in _PLAIN:
            found = getattr(found, _PLAIN[rule])
            continue
        for front, letter in _COLOURS.items():
            if rule.startswith(front):
                found = getattr(found, letter + rule[len(front):])
    return found


def _style_of(ttype: Any) -> str:
    """The inline style of a token type."""
    names = ttype[len(STYLED):]
    rules = (_RULES[name] if name in _RULES else _RULES[name[0]] + name[1:] for name in names)
    return "".join(f"{rule};" for rule in rules)


class VulsangiLexer(Lexer):
    """Text in a language, by the theme of a name and the grammars and themes of folders, as `vulsangi.highlight` takes
    them."""

    name = "Vulsangi"
    language = "txt"
    theme = ""
    folders: Optional[Sequence[PathLike]] = None

    def __init__(self, **options: Any) -> None:
        super().__init__(**options)
        self.language = options.get("language", self.language)
        self.theme = options.get("theme", self.theme)
        self.folders = options.get("folders", self.folders)

    def get_tokens_unprocessed(self, text: str) -> Iterator[Tuple[int, Any, str]]:
        """The pieces of the text, each with its place."""
        page = highlight(text, self.language, self.theme, folders=self.folders)
        head = _PAGE.match(page)
        yield 0, _type_of(head.group(1) if head else ""), ""
        place = 0
        for style, piece in _PIECE.findall(page):
            shown = html.unescape(piece)
            yield place, _type_of(style), shown
            place += len(shown)


def lexer_for(language: str, theme: str, folders: Optional[Sequence[PathLike]] = None) -> Type[VulsangiLexer]:
    """A class of lexers for a language, for programs that want a class without options."""
    return type("VulsangiLexer", (VulsangiLexer,), {"language": language, "theme": theme, "folders": folders})


class VulsangiFormatter(HtmlFormatter):
    """HTML: tokens of `VulsangiLexer` with inline styles, those of any other lexer as by `HtmlFormatter`, whose options it
    takes. Of these `cssclass` and `nowrap` count for the former."""

    name = "Vulsangi"

    def format_unencoded(self, tokensource: Iterable[Tuple[Any, str]], outfile: IO[str]) -> None:
        """Writes the text."""
        tokens = list(tokensource)
        if not tokens or tokens[0][0] not in STYLED:
            super().format_unencoded(iter(tokens), outfile)
            return
        body = "".join(
            f'<span style="{_style_of(ttype)}">{html.escape(text, quote=False)}</span>' if ttype in STYLED else html.escape(text)
            for ttype, text in tokens
            if text
        )
        if self.nowrap:
            outfile.write(body)
            return
        outfile.write(f'<div class="{html.escape(self.cssclass)}"><pre style="{_style_of(tokens[0][0])}">{body}</pre></div>\n')
