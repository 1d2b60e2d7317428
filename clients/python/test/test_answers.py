"""Answers: lists with what was asked, and HTML that stands by itself."""

import html.parser
import re
import tempfile
import unittest
from html import escape
from pathlib import Path
from typing import Optional, Union

from whatif import Change, Difference, Formula, Workbook
from whatif.answers import Answer


class Reader(html.parser.HTMLParser):
    """The cells of a table, and whether each tag is closed in order."""

    def __init__(self) -> None:
        super().__init__()
        self.opened: list[str] = []
        self.rows: list[list[str]] = []
        self.caption = ""
        self.scopes: list[str] = []

    def handle_starttag(self, tag: str, attrs: list[tuple[str, Optional[str]]]) -> None:
        self.opened.append(tag)
        if tag == "tr":
            self.rows.append([])
        if tag in ("th", "td"):
            self.rows[-1].append("")
        self.scopes += [str(value) for name, value in attrs if name == "scope"]

    def handle_endtag(self, tag: str) -> None:
        assert self.opened.pop() == tag

    def handle_data(self, data: str) -> None:
        if self.opened and self.opened[-1] == "caption":
            self.caption += data
        elif {"th", "td"} & set(self.opened):
            self.rows[-1][-1] += data


class AnswersTest(unittest.TestCase):
    def setUp(self) -> None:
        self.book = Workbook()
        self.addCleanup(self.book.close)
        self.book["A1"] = [["consumption", 250], ["price", 0.32], ["fee", 12], ["bill", Formula("=[.B1]*[.B2]+[.B3]")]]

    def read(self, answer: Union[Answer, Workbook]) -> Reader:
        reader = Reader()
        reader.feed(answer._repr_html_())
        self.assertEqual(reader.opened, [])
        return reader

    def test_a_table(self) -> None:
        table = self.book.table("B4", "B1", [250, 400], "B2", [0.32, 0.28])
        self.assertEqual((table.result, table.inputs, table.labels["B4"]), ("B4", ["B1", "B2"], "bill"))
        self.assertEqual((table.heads, table.rows), ([[250, 400], [self.book["B2"], table.heads[1][1]]], [[92, 82], [140, 124]]))
        self.assertEqual(table.axes().caption, "bill (B4) by consumption (B1) and price (B2)")
        read = self.read(table)
        self.assertEqual(read.caption.split(), ["bill", "by", "consumption", "and", "price"])
        self.assertEqual(read.rows, [["", "price"], ["consumption", "0.32", "0.28"], ["250", "92", "82"], ["400", "140", "124"]])
        self.assertEqual(read.scopes, ["colgroup"] + ["col"] * 3 + ["row"] * 2)
        self.assertIn("<svg", table._repr_html_())

    def test_a_table_over_cells_knows_its_heads(self) -> None:
        self.book["D1"] = [[None, 0.32, 0.28], [250], [400]]
        table = self.book.table("B4", "B1", "D2:D3", "B2", "E1:F1")
        self.assertEqual((table.heads[0], table.rows), ([250, 400], [[92, 82], [140, 124]]))
        one = self.book.table("B4", "B1", "D2:D3")
        self.assertEqual((one.heads, one.rows, one), ([[250, 400]], [[92], [140]], [[250, 92], [400, 140]]))

    def test_a_comparison_and_changes(self) -> None:
        self.book.scenario("winter", {"B1": 400})
        compared = self.book.compare(None, "winter", "B1:B4")
        self.assertEqual((compared.before, compared.after, compared.cells, compared.rows[1]), ("sheet", "winter", ["B1", "B4"], [92, 140, 48]))
        self.assertIsInstance(compared[0], Difference)
        self.assertEqual(self.read(compared).rows[2][:3], ["bill B4", "92", "140"])
        self.assertTrue(self.read(compared).rows[2][3].startswith("+48+52.2"))
        changes = self.book.changes()
        self.assertIsInstance(changes[0], Change)
        self.assertEqual(self.read(changes).rows[2], ["B1", "250"])
        self.assertEqual(self.read(self.book.scenarios("B4")).rows, [["", "sheet", "winter"], ["bill", "92", "140"]])
        self.assertEqual(self.read(self.book.sensitivity("B4")).rows[3], ["fee", "12", "90.8", "93.2", "2.4"])

    def test_a_workbook(self) -> None:
        self.book["C9"] = self.book["ZZ100"] = 1
        del self.book["ZZ100"]
        read = self.read(self.book)
        self.assertEqual((read.caption, read.rows[0], read.rows[4]), ("A1:C9", ["", "A", "B", "C"], ["4", "bill", "92", ""]))
        self.book["ZZ100"] = 1
        self.assertEqual(self.read(self.book).caption, "A1:P40")
        with Workbook() as empty:
            self.assertEqual(self.read(empty).rows, [["", "A"], ["1", ""]])

    def test_texts_are_escaped(self) -> None:
        for text in ("<script>alert(1)</script>", '"&amp;', "</td>"):
            self.book["A1"] = text
            self.assertEqual(self.read(self.book["A1:B1"]).rows[1], ["1", text, "250"])
            table = self.book.table("B4", "B1", [1])
            self.assertIn(text, table.axes().caption)
            self.assertIn(text, self.read(table).caption)

    def test_a_report(self) -> None:
        """One page with a part for each answer, in order, and the sheet; nothing of it is markup but its own."""
        self.book["A4"] = "<b>bill"
        self.book.scenario("winter", {"B1": 400})
        asked = [self.book.table("B4", "B1", [250, 400]), self.book.compare(None, "winter", "B1:B4"), self.book.sensitivity("B4")]
        with tempfile.TemporaryDirectory() as folder:
            path = Path(folder) / "page.html"
            self.book.report(path, *asked, title="A & B")
            page = path.read_text()
        self.assertIn("<title>A &amp; B</title>", page)
        self.assertNotIn("<b>bill", page)
        heads = re.findall("<h2>(.*?)</h2>", page)
        self.assertEqual(heads, [escape(it.axes().caption) for it in asked] + ["A1:B4"])
        self.assertEqual((page.count("<table"), page.count("<svg") > 0, page.count("http://") + page.count("https://")), (4, True, 0))

    def test_long_numbers_are_rounded_and_say_so(self) -> None:
        self.book["B1"] = Formula("=1000*1035^9/1000^9")
        shown = self.book["B1:B1"]._repr_html_()
        self.assertIn("≈ 1362.897353", shown)
        self.assertIn('title="1362.8973532', shown)


if __name__ == "__main__":
    unittest.main()
