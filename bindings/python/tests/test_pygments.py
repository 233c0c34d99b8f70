"""The lexer and the formatter for Pygments, where it is installed."""

import tempfile
import unittest
from pathlib import Path

from test_vulsangi import GRAMMAR, THEME

try:
    from pygments import highlight
    from pygments.formatters import NullFormatter
    from pygments.lexers import PythonLexer

    from vulsangi.pygments import VulsangiFormatter, lexer_for
except ImportError:
    highlight = None

BODY = (
    '<span style="font-weight:bold;color:#ff0000;">let</span>'
    '<span style="color:#000000;"> x &lt; &amp;1\n</span>'
)


@unittest.skipIf(highlight is None, "Pygments is not installed")
class Pairs(unittest.TestCase):
    def setUp(self) -> None:
        folder = tempfile.TemporaryDirectory()
        self.addCleanup(folder.cleanup)
        Path(folder.name, "Small.sublime-syntax").write_text(GRAMMAR)
        Path(folder.name, "two.tmTheme").write_text(THEME)
        self.lexer = lexer_for("sml", "two", [folder.name])()

    def test_pair(self) -> None:
        page = f'<div class="highlight"><pre style="background-color:#ffffff;">{BODY}</pre></div>\n'
        self.assertEqual(highlight("let x < &1\n", self.lexer, VulsangiFormatter()), page)
        self.assertEqual(highlight("let x < &1\n", self.lexer, VulsangiFormatter(nowrap=True)), BODY)

    def test_text_stays(self) -> None:
        self.assertEqual(highlight("let x < &1\n", self.lexer, NullFormatter()), "let x < &1\n")

    def test_other_lexers(self) -> None:
        self.assertIn('<span class="k">def</span>', highlight("def f(): pass\n", PythonLexer(), VulsangiFormatter()))


if __name__ == "__main__":
    unittest.main()
