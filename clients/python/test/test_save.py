"""`save` and `open`: the script of what was accepted makes the same workbook."""

import sys
import tempfile
import unittest
from fractions import Fraction
from pathlib import Path

from whatif import Formula, Refused, Text, Workbook


class SaveTest(unittest.TestCase):
    def setUp(self) -> None:
        kept = tempfile.TemporaryDirectory()
        self.addCleanup(kept.cleanup)
        self.path = Path(kept.name, "model.whatif")

    def test_what_was_accepted(self) -> None:
        with Workbook() as book:
            book["A1"] = [["price", 0.32], ["two\nlines", 1 / 3], ["007", Text("=x")]]
            book["B4"] = Formula("=[.B1]*[.B2]")
            with self.assertRaises(Refused):
                book["B5"] = Formula("=B1")
            book.what_if("B4", {"B1": 7})
            book.table("B4", "B1", [1, 2, 3])
            winter = book.scenario("winter", {"B1": Fraction(1, 3)})
            book.scenario("away", {"B1": 5}, base=winter).drop()
            book.session("ana").set("C1", 9)
            book.session("bo").set("C1", 8, force=True)
            book.save(self.path)
            whole, shown = book["A1:C5"], book.scenarios("B4")
        with Workbook.open(self.path) as again:
            self.assertEqual((again["A1:C5"], again.scenarios("B4")), (whole, shown))
            again.save(self.path)
            self.assertEqual(again.script(), self.path.read_text())
        self.assertNotIn("whatif_py", self.path.read_text())
        self.assertNotIn("show", self.path.read_text())

    def test_a_script_that_is_refused(self) -> None:
        self.path.write_text("set A1 5\nset A2 =A1\n")
        with self.assertRaises(Refused) as caught:
            Workbook.open(self.path)
        self.assertEqual(caught.exception.line, 2)

    def test_questions_of_a_script_arent_saved(self) -> None:
        self.path.write_text("# a model\nset A1 5\nshow A1\ncsv B1 2\n1,2\n3,4\nas ana\nforce set A1 6\nuse\n")
        with Workbook.open(self.path) as book:
            self.assertEqual(book.script(), "set A1 5\ncsv B1 2\n1,2\n3,4\nset A1 6\n")


class HintsTest(unittest.TestCase):
    """A refusal says what to write instead, as whatif-check does."""

    def hint(self, line: str) -> str:
        with Workbook() as book:
            book.scenario("winter", {"A1": 1})
            with self.assertRaises(Refused) as caught:
                book.command(line)
        self.assertIn(caught.exception.hint or "-", str(caught.exception))
        return caught.exception.hint or ""

    @unittest.skipIf(sys.version_info < (3, 10), "hints need Python 3.10")
    def test_hints(self) -> None:
        for line, part in (
            ("set C1 =B1*2", "write [.B1]"),
            ("set C1 =SUM([.B1],2)", "parted by ;"),
            ("sett C1 5", "is set meant?"),
            ("use wintr", "is winter meant?"),
            ("show A1:ZZZ9", "columns are A to XFD"),
        ):
            self.assertIn(part, self.hint(line), line)


if __name__ == "__main__":
    unittest.main()
