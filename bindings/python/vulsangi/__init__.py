"""Proved syntax highlighting by grammars of Sublime Text.

    >>> import vulsangi
    >>> page = vulsangi.highlight("let x = 1\\n", "rs", "dusk", folders=["grammars", "themes"])

`Set` holds grammars and themes; `highlight` shows a text by one that is kept for its folders; `Lines` reads a text line by
line.
"""

from ._set import Fault, Format, Language, Lines, Set, Span, highlight

__all__ = ["Fault", "Format", "Language", "Lines", "Set", "Span", "highlight"]
