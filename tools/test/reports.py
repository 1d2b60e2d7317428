"""What the tests of whatif-report have in common: a model, and pages made in a folder of their own."""

from __future__ import annotations

import contextlib
import io
import tempfile
import unittest
from fractions import Fraction
from pathlib import Path

from report_page import Block, blocks
from whatif_tools.report.main import main

STALL = """# A market stall
csv A1 3
customers,180
price of a jar,4.80
costs,120
set A4 profit
set B4 =[.B1]*([.B2]-2.1)-[.B3]
"""
TABLE = """csv D1 4
,4.2,4.8
80,,
180,,
300,,
"""


def profit(customers: Fraction, price: Fraction, costs: Fraction) -> Fraction:
    return customers * (price - Fraction(21, 10)) - costs


class Reports(unittest.TestCase):
    """Scripts in a folder of their own."""

    def setUp(self) -> None:
        self.folder = tempfile.TemporaryDirectory()
        self.place = Path(self.folder.name)

    def tearDown(self) -> None:
        self.folder.cleanup()

    def called(self, *words: str) -> tuple[int, str]:
        """The exit status, and what was said on standard error."""
        said = io.StringIO()
        with contextlib.redirect_stderr(said):
            status = main(list(words))
        return status, said.getvalue()

    def page(self, script: str, *words: str) -> str:
        path, out = self.place / "s.whatif", self.place / "page.html"
        path.write_bytes(script.encode())
        self.status, self.said = self.called(str(path), "-o", str(out), *words)
        return out.read_text(encoding="utf-8")

    def blocks(self, script: str, *words: str) -> list[Block]:
        """The blocks of the questions: all but what was found, at the top, and the listing, at the end."""
        return blocks(self.page(script, *words))[1:-1]
