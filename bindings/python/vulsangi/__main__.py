"""Shows a file, or standard input, as a page or in a terminal.

    python -m vulsangi --folder grammars --folder themes --theme dusk --format screen main.rs
"""

import argparse
import os
import sys
from pathlib import Path
from typing import List, Optional

from . import Fault, Format, Set


def _words() -> argparse.ArgumentParser:
    parser = argparse.ArgumentParser(prog="python -m vulsangi", description="Shows a file in colour.")
    parser.add_argument("file", nargs="?", help="the file; standard input where there is none")
    parser.add_argument("--folder", action="append", default=[], help="a folder of grammars and themes; may be repeated")
    parser.add_argument("--language", help="an extension or a name; that of the file's name where there is none")
    parser.add_argument("--theme", default="", help="the theme's name")
    parser.add_argument("--format", default="html", choices=[it.name.lower() for it in Format])
    parser.add_argument("--languages", action="store_true", help="list the languages and end")
    return parser


def main(words: Optional[List[str]] = None) -> int:
    """Does what the words say, and answers the status."""
    given = _words().parse_args(words)
    folders = given.folder or [it for it in os.environ.get("VULSANGI_PATH", "").split(":") if it]
    try:
        with Set(folders) as held:
            if given.languages:
                for language in held.languages():
                    print(language.name, *language.extensions, sep="\t")
                return 0
            data = Path(given.file).read_bytes() if given.file else sys.stdin.buffer.read()
            text = data.decode()
            language = given.language or held.language_of(given.file or "", text.partition("\n")[0])
            shown = held.highlight(text, language, given.theme, Format[given.format.upper()])
    except (Fault, OSError, UnicodeDecodeError) as fault:
        print(f"vulsangi: {fault}", file=sys.stderr)
        return 1
    sys.stdout.buffer.write(shown.encode())
    return 0


if __name__ == "__main__":
    sys.exit(main())
