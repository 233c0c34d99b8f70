"""A page, the languages, and each fault of the calls: `python -m unittest discover -s tests`, in this folder's parent."""

import tempfile
import unittest
from pathlib import Path

import vulsangi

GRAMMAR = """name: Small
file_extensions: [sml]
scope: source.small
first_line_match: '^let\\b'
contexts:
  main:
    - match: '\\b(let|in)\\b'
      scope: keyword.small
"""

THEME = """{"name": "Two", "settings": [
{"settings": {"background": "#ffffff", "foreground": "#000000"}},
{"scope": "keyword", "settings": {"foreground": "#ff0000", "fontStyle": "bold"}}]}"""

PAGE = (
    '<pre style="background-color:#ffffff;">\n'
    '<span style="font-weight:bold;color:#ff0000;">let</span>'
    '<span style="color:#000000;"> x &lt; 1\n</span></pre>\n'
)


def small() -> vulsangi.Set:
    held = vulsangi.Set()
    held.add_grammar("Small.sublime-syntax", GRAMMAR)
    held.add_theme("two", THEME)
    return held


class Pages(unittest.TestCase):
    def test_page(self) -> None:
        self.assertEqual(small().highlight("let x < 1\n", "sml", "two"), PAGE)

    def test_folder(self) -> None:
        with tempfile.TemporaryDirectory() as folder:
            Path(folder, "Small.sublime-syntax").write_text(GRAMMAR)
            Path(folder, "two.tmTheme").write_text(THEME)
            self.assertEqual(vulsangi.highlight("let x < 1\n", "small", "two", folders=[folder]), PAGE)

    def test_languages(self) -> None:
        self.assertEqual([it.name for it in small().languages()], ["Plain Text", "Small"])

    def test_language_of(self) -> None:
        held = small()
        self.assertEqual([held.language_of(it) for it in ("a/b.SML", "b.c", "b", "")], ["Small", "txt", "txt", "txt"])
        self.assertEqual(held.find("b", "let x"), "Small")

    def test_lines(self) -> None:
        held = small()
        lines = vulsangi.Lines(held, "sml", "two")
        for _ in range(2):
            first, second = lines.line("let é\n")
            self.assertEqual(first, vulsangi.Span("let", "#ff0000ff", "#ffffffff", True, False, False))
            self.assertEqual((second.text, second.foreground, second.bold), (" é\n", "#000000ff", False))
            self.assertEqual(lines.line(""), [])
            lines.reset()
        with self.assertRaises(vulsangi.Fault):
            vulsangi.Lines(held, "none", "two")

    def test_refusals(self) -> None:
        held = small()
        faults = [
            (lambda: held.add_grammar("a", "name: ["), 4),
            (lambda: held.add_theme("a", "{"), 5),
            (lambda: held.highlight("x", "none", "two"), 8),
            (lambda: held.highlight("x", "txt", "none"), 9),
            (lambda: held.add_theme("two", THEME), 7),
        ]
        for call, number in faults:
            with self.assertRaises(vulsangi.Fault) as raised:
                call()
            self.assertEqual(raised.exception.number, number)
            self.assertTrue(str(raised.exception))

    def test_closed(self) -> None:
        held = small()
        held.close()
        held.close()
        with self.assertRaises(vulsangi.Fault):
            held.languages()


if __name__ == "__main__":
    unittest.main()
