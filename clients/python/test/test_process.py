"""What happens when the program ends, is not there, or writes much."""

import os
import re
import stat
import subprocess
import tempfile
import unittest
from collections.abc import Callable
from pathlib import Path

from whatif import Ended, Refused, Workbook
from whatif.refusals import MEANINGS
from whatif.script import commands_of


def stand_in(folder: str, script: str) -> str:
    """A shell script in the place of the program."""
    path = Path(folder, "program")
    path.write_text(f"#!/bin/sh\n{script}\n")
    path.chmod(path.stat().st_mode | stat.S_IXUSR)
    return str(path)


class EndedTest(unittest.TestCase):
    def test_a_program_that_has_ended(self) -> None:
        with tempfile.TemporaryDirectory() as folder:
            book = Workbook(stand_in(folder, "read line; echo ok; echo 'no more paper' >&2; exit 7"))
            book.set("A1", 1)
            with self.assertRaises(Ended) as caught:
                book.set("A1", 2)
                book.set("A1", 3)
            self.assertEqual((caught.exception.status, caught.exception.complaint), (7, "no more paper"))
            self.assertEqual(book.close(), 7)

    def test_a_reply_that_breaks_off(self) -> None:
        with tempfile.TemporaryDirectory() as folder, Workbook(
            stand_in(folder, """read line; printf '"a","b'; exit 3""")
        ) as book:
            with self.assertRaises(Ended) as caught:
                book.show("A1")
            self.assertEqual(caught.exception.status, 3)

    def test_a_program_that_is_not_there(self) -> None:
        with self.assertRaisesRegex(FileNotFoundError, "/nowhere/whatif: no such program.*WHATIF"):
            Workbook("/nowhere/whatif")

    def test_a_closed_book(self) -> None:
        with Workbook() as book:
            book["A1"] = 1
        uses: list[Callable[[], object]] = [lambda: book["A1"], lambda: book.set("A1", 1), lambda: book.what_if("A1", {"A1": 2})]
        for use in uses:
            with self.assertRaisesRegex(RuntimeError, "this workbook is closed"):
                use()
        self.assertEqual(book.close(), 0)

    def test_a_program_that_was_killed(self) -> None:
        book = Workbook()
        book.set("A1", 1)
        book._process._program.kill()
        book._process._program.wait()
        for _ in range(2):
            with self.assertRaises(Ended) as caught:
                book.show("A1")
            self.assertEqual(caught.exception.status, -9)
        book.close()

    def test_wrong_words(self) -> None:
        with Workbook(keep=0) as book, self.assertRaises(Ended) as caught:
            book.show("A1")
        self.assertEqual(caught.exception.status, 2)

    def test_too_many_lines(self) -> None:
        with Workbook() as book:
            data = b"1\n" * 199_998
            for _ in range(5):
                book.command("csv A1 199998", data)
            self.assertEqual(book.lines, 999_995)
            for _ in range(5):
                book.set("A1", 2)
            with self.assertRaisesRegex(Ended, "exit status 4"):
                book.set("A1", 3)

    def test_it_ends_well(self) -> None:
        book = Workbook()
        book.set("A1", 1)
        self.assertEqual(book.close(), 0)


class LargeTest(unittest.TestCase):
    """More goes each way than a pipe holds."""

    def test_many_cells(self) -> None:
        rows = [[row, f"text {row} " + "x" * 40] for row in range(30_000)]
        with Workbook() as book:
            book.put("A1", rows)
            shown = book.show("A1:B30000")
            self.assertEqual(shown, [[str(number), text] for number, text in rows])
            self.assertEqual(book.values("A30000:B30000"), [rows[-1]])

    def test_long_texts(self) -> None:
        text = "\u20ac" * 10_922
        with Workbook() as book:
            for row in range(1, 41):
                book.set(f"A{row}", text)
            self.assertEqual(book.show("A1:A40"), [[text]] * 40)
            with self.assertRaises(Refused) as caught:
                book.set("A41", text + "\u20ac")
            self.assertEqual(caught.exception.code, "E08")

    def test_a_long_script_with_much_to_say(self) -> None:
        script = "csv A1 1\n" + ",".join("7" * 30 for _ in range(100)) + "\n" + "show A1:CV1\n" * 2000
        with Workbook() as book:
            answers = book.run(script)
        self.assertEqual(len(answers), 2001)
        self.assertEqual(answers[-1], [["7" * 30] * 100])


class ScriptTest(unittest.TestCase):
    SCRIPT = "# a model\r\nset A1 1\n\ncsv B1 2\n1,2\n# data\nset C3 =A1\nset D1 4\n"

    def test_a_refusal_in_the_middle(self) -> None:
        with Workbook() as book:
            with self.assertRaises(Refused) as caught:
                book.run(self.SCRIPT)
            refused = caught.exception
            self.assertEqual((refused.code, refused.line, refused.command), ("E05", 7, "set C3 =A1"))
            self.assertEqual((refused.place, refused.meaning), ("C3", MEANINGS["E05"]))
            self.assertEqual(book.show("A1:D2"), [["1", "1", "2", ""], ["", "# data", "", ""]])
            book.set("A2", 5)
            self.assertEqual(book.value("A2"), 5)

    def test_a_file(self) -> None:
        with tempfile.TemporaryDirectory() as folder, Workbook() as book:
            path = Path(folder, "model.whatif")
            path.write_text("set A1 1/4\nas ana\nuse\nshow A1\n")
            self.assertEqual(book.load(path), [[], [], [], [["0.25"]]])
            self.assertEqual(book.value("A1"), 0.25)

    def test_data_lines_that_are_missing(self) -> None:
        with Workbook() as book, self.assertRaisesRegex(ValueError, "line 2: 3 data lines"):
            book.run("set A1 1\ncsv B1 3\n1\n2\n")

    def test_too_many_data_lines(self) -> None:
        self.assertEqual([line for _, line, _ in commands_of("csv A1 1000001\nset A1 1\n")], ["csv A1 1000001", "set A1 1"])
        with Workbook() as book, self.assertRaises(Refused):
            book.run("csv A1 1000001\nset A1 1\n")


class MeaningsTest(unittest.TestCase):
    def test_refusals_mean_what_the_help_says(self) -> None:
        told = subprocess.run([os.environ["WHATIF"], "--help"], capture_output=True, text=True, check=True).stdout
        self.assertEqual(re.findall(r"^  (E\d\d)  (.*)$", told, re.MULTILINE), list(MEANINGS.items()))


if __name__ == "__main__":
    unittest.main()
