"""Shows texts from Python, C and Rust, and compares them with given pages.

    PYTHONPATH=python python3 pages.py GRAMMARS THEME TEXTS PAGES

Each text of the folder TEXTS is shown in the language of its file's name, by the theme, a file of JSON, and the grammars of a
folder. Its page is NAME.html or NAME.gz of the folder PAGES. C and Rust are tried where their programs `example` and `page`
are built. The status is 1 where a page is another one.
"""

import gzip
import subprocess
import sys
import tempfile
from pathlib import Path
from typing import Callable, Dict, Optional

import vulsangi

HERE = Path(__file__).resolve().parent
C = HERE / "c" / "example"
RUST = HERE / "rust" / "target" / "release" / "examples" / "page"


def expected(pages: Path, name: str) -> Optional[bytes]:
    """The given page of a text, if there is one."""
    if (pages / f"{name}.gz").exists():
        return gzip.decompress((pages / f"{name}.gz").read_bytes())
    page = pages / f"{name}.html"
    return page.read_bytes() if page.exists() else None


def ways(grammars: Path, theme: Path, folder: Path) -> Dict[str, Callable[[Path, str], bytes]]:
    """How a file is shown in a language, by each binding. The folder gets what those need that read folders."""
    (folder / "grammars").symlink_to(grammars.resolve())
    (folder / "themes").mkdir()
    (folder / "themes" / "theme.tmTheme").symlink_to(theme.resolve())
    held = vulsangi.Set([grammars, folder / "themes"])
    found = {"Python": lambda file, language: held.highlight(file.read_bytes().decode(), language, "theme").encode()}
    if C.exists():
        texts = sorted(map(str, grammars.rglob("*.sublime-syntax")))
        found["C"] = lambda file, language: shown(C, theme, language, file, *texts)
    if RUST.exists():
        found["Rust"] = lambda file, language: shown(RUST, folder, language, "theme", file)
    return found


def shown(*words: object) -> bytes:
    """What a program writes."""
    return subprocess.run([str(word) for word in words], check=True, stdout=subprocess.PIPE).stdout


def main(grammars: Path, theme: Path, texts: Path, pages: Path) -> int:
    """Shows all, tells each page that is another one, and answers the status."""
    status = 0
    languages = vulsangi.Set([grammars])
    with tempfile.TemporaryDirectory() as folder:
        for name, way in ways(grammars, theme, Path(folder)).items():
            same = lacking = 0
            for file in sorted(texts.iterdir()):
                page = expected(pages, file.name)
                if page is None:
                    lacking += 1
                elif way(file, languages.language_of(file)) == page:
                    same += 1
                else:
                    print(f"{name}: another page: {file.name}")
                    status = 1
            print(f"{name}: {same} pages are as given" + (f", {lacking} texts have no page" if lacking else ""))
    return status


if __name__ == "__main__":
    if len(sys.argv) != 5:
        sys.exit(__doc__)
    sys.exit(main(*map(Path, sys.argv[1:])))
