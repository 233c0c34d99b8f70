"""Sets of grammars and themes."""

import ctypes
import enum
import functools
import os
import threading
from pathlib import Path
from typing import Iterable, Iterator, List, NamedTuple, Optional, Sequence, Tuple, Union

from ._library import Handle, RawSpan, load

PathLike = Union[str, "os.PathLike[str]"]


class Format(enum.IntEnum):
    """What a text is shown as."""

    HTML = 0
    TERMINAL = 1
    SCREEN = 2
    SCREEN_256 = 3


class Fault(Exception):
    """A refused call: `number` is that of `vulsangi.h`, and the message says why."""

    def __init__(self, number: int, message: str) -> None:
        super().__init__(message)
        self.number = number


UNKNOWN_LANGUAGE = 8
"""The number of a `Fault` where no language has the name that was asked for, or fits a file."""


class Language(NamedTuple):
    """A language, with the extensions of its files."""

    name: str
    extensions: List[str]


@functools.lru_cache(maxsize=None)
def _library() -> ctypes.CDLL:
    return load()


def _files(folder: PathLike, suffixes: Tuple[str, ...]) -> Iterator[Path]:
    """The files below a folder with one of these suffixes, in the order of their paths."""
    for path in sorted(Path(folder).rglob("*")):
        if path.name.endswith(suffixes) and path.is_file():
            yield path


def _bytes(call: str, handle: Handle) -> bytes:
    """What a call that copies a text out gives, whole."""
    copy = getattr(_library(), call)
    room = ctypes.create_string_buffer(1)
    size = copy(handle, room, 0)
    room = ctypes.create_string_buffer(size + 1)
    copy(handle, room, size)
    return room.raw[:size]


def _check(number: int, call: str, handle: Handle) -> None:
    """Raises a `Fault` where a call was refused, with the words that another call copies out."""
    if number:
        raise Fault(number, _bytes(call, handle).decode() or f"refused with {number}")


class Set:
    """Grammars and themes. Once a text was shown, or the languages were listed, nothing is added to it.

    A set is used by the thread that made it.
    """

    def __init__(self, folders: Iterable[PathLike] = ()) -> None:
        self._handle = Handle()
        self._told(_library().vls_set_new(self._handle))
        for folder in folders:
            self.add_folder(folder)

    def __del__(self) -> None:
        self.close()

    def __enter__(self) -> "Set":
        return self

    def __exit__(self, *_: object) -> None:
        self.close()

    def close(self) -> None:
        """Frees what the set holds: it is empty then, and any further call a `Fault`."""
        if hasattr(self, "_handle"):
            _library().vls_set_free(self._handle)

    def _told(self, number: int) -> None:
        _check(number, "vls_set_fault", self._handle)

    def add_grammar(self, file: str, text: str) -> None:
        """Adds the text of a `.sublime-syntax` file, under the file's name."""
        name, data = file.encode(), text.encode()
        self._told(_library().vls_set_add_grammar(self._handle, name, len(name), data, len(data)))

    def add_theme(self, name: str, text: Union[str, bytes]) -> None:
        """Adds a theme, as JSON, under a name."""
        key, data = name.encode(), text.encode() if isinstance(text, str) else text
        self._told(_library().vls_set_add_theme(self._handle, key, len(key), data, len(data)))

    def add_folder(self, folder: PathLike) -> None:
        """Adds the grammars (`.sublime-syntax`) and the themes (`.tmTheme`) below a folder. A theme's name is that of
        its file without the extension."""
        for path in _files(folder, (".sublime-syntax",)):
            self.add_grammar(str(path), path.read_bytes().decode())
        for path in _files(folder, (".tmTheme",)):
            self.add_theme(path.name[: -len(".tmTheme")], path.read_bytes())

    def link(self) -> None:
        """Links the grammars, unless they are."""
        self._told(_library().vls_set_link(self._handle))

    def languages(self) -> List[Language]:
        """The languages that aren't hidden."""
        self._told(_library().vls_set_languages(self._handle))
        lines = _bytes("vls_set_output", self._handle).decode().split("\n")[:-1]
        split = (line.partition("\t") for line in lines)
        return [Language(name, rest.split(" ") if rest else []) for name, _, rest in split]

    def find(self, file: PathLike, line: str = "") -> str:
        """The name of a text's language: of the one that the name of its file tells, be it the whole name, as `Makefile`,
        or its extension, or else its first line. The grammars are linked."""
        name, text = str(file).encode(), line.encode()
        self._told(_library().vls_set_find(self._handle, name, len(name), text, len(text)))
        return _bytes("vls_set_output", self._handle).decode()

    def language_of(self, file: PathLike, line: str = "") -> str:
        """The same, or plain text where neither tells one."""
        try:
            return self.find(file, line)
        except Fault as fault:
            if fault.number != UNKNOWN_LANGUAGE:
                raise
            return "txt"

    def highlight(self, code: str, language: str, theme: str, format: Format = Format.HTML) -> str:
        """A text in a language (an extension or a name, whatever its case), shown by a theme."""
        text, name, style = code.encode(), language.encode(), theme.encode()
        self._told(
            _library().vls_set_page(
                self._handle, text, len(text), name, len(name), style, len(style), int(format)
            )
        )
        return _bytes("vls_set_output", self._handle).decode()


class Span(NamedTuple):
    """A piece of a line: its text, its colours as `#rrggbbaa`, and its font."""

    text: str
    foreground: str
    background: str
    bold: bool
    underline: bool
    italic: bool


class Lines:
    """A text that is read line by line, in a language by a theme. It is read with the set that it was made with."""

    def __init__(self, held: Set, language: str, theme: str) -> None:
        self._set, self._handle = held, Handle()
        name, style = language.encode(), theme.encode()
        held._told(
            _library().vls_doc_new(self._handle, held._handle, name, len(name), style, len(style))
        )

    def __del__(self) -> None:
        if hasattr(self, "_handle"):
            _library().vls_doc_free(self._handle)

    def _told(self, number: int) -> None:
        _check(number, "vls_doc_fault", self._handle)

    def line(self, text: str) -> List[Span]:
        """The pieces of the next line, which is given with its newline: they cover the line. One that takes too long is a
        piece in the theme's own style."""
        data = text.encode()
        self._told(_library().vls_doc_line(self._handle, self._set._handle, data, len(data)))
        count = _library().vls_doc_spans(self._handle, (RawSpan * 1)(), 0)
        room = (RawSpan * (count + 1))()
        _library().vls_doc_spans(self._handle, room, count)
        return [_span(data, raw) for raw in room[:count]]

    def reset(self) -> None:
        """Stands before the first line again."""
        self._told(_library().vls_doc_reset(self._handle, self._set._handle))


def _span(line: bytes, raw: RawSpan) -> Span:
    """A piece of a line."""
    text = line[raw.offset : raw.offset + raw.length].decode()
    colours = (f"#{number:08x}" for number in (raw.foreground, raw.background))
    return Span(text, *colours, *(bool(raw.flags & bit) for bit in (1, 2, 4)))


_kept = threading.local()


def _set_of(folders: Sequence[PathLike]) -> Set:
    """The set of these folders, which is kept for the thread."""
    key = tuple(os.fspath(folder) for folder in folders)
    if getattr(_kept, "key", None) != key:
        _kept.set = Set(folders)
        _kept.key = key
    return _kept.set


def highlight(
    code: str,
    language: str,
    theme: str,
    format: Format = Format.HTML,
    folders: Optional[Sequence[PathLike]] = None,
) -> str:
    """A text in a language, shown by a theme, by the grammars and themes of folders: those given, or those that the
    environment's VULSANGI_PATH names, with colons between them. The last set is kept."""
    if folders is None:
        folders = [folder for folder in os.environ.get("VULSANGI_PATH", "").split(":") if folder]
    return _set_of(folders).highlight(code, language, theme, format)
