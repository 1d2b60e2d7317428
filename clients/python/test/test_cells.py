"""Cells: what is put into them, what they show, and how a refusal says what and where."""

import unittest
from fractions import Fraction
from typing import Any

from books import WorkbookTest
from whatif import CellError, Formula, Text
from whatif.addresses import column_name


class CellsTest(WorkbookTest):
    VALUES = [
        3,
        Fraction(1, 3),
        Fraction(-5, 2),
        True,
        False,
        None,
        "rent",
        "5",
        "007",
        "TRUE",
        "#N/A",
        "",
        "'tis",
        " two  spaces ",
        'a "quoted" word',
        "a,b;c",
        "two\nlines",
        "a\r\nb\r",
        "end\r",
        "ok\n",
        'refused E05\n"',
        "\ufeffmark",
        "# no comment",
        Text("=1+1"),
        Text("of:=1"),
        "gr\u00fc\u00dfe \U0001f35e",
    ]

    def test_set_and_value(self) -> None:
        for value in self.VALUES:
            with self.subTest(value):
                self.book.set("C3", value)
                self.assert_same(self.book.value("C3"), value)

    def test_put_and_values(self) -> None:
        self.book.put("B2", [self.VALUES, self.VALUES[::-1]])
        columns = len(self.VALUES)
        shown = self.book.values(f"B2:{self.column(columns + 1)}3")
        for row, wanted in zip(shown, (self.VALUES, self.VALUES[::-1])):
            for value, other in zip(row, wanted):
                self.assert_same(value, other)

    def assert_same(self, value: object, wanted: object) -> None:
        """Equal, and of one kind: True isn't 1."""
        self.assertEqual(value, wanted)
        self.assertEqual(isinstance(value, bool), isinstance(wanted, bool))
        self.assertEqual(isinstance(value, str), isinstance(wanted, str))

    @staticmethod
    def column(number: int) -> str:
        return column_name(number)

    def test_floats_are_the_decimals_that_they_print_as(self) -> None:
        self.book.put("A1", [[0.1, 0.2, 1e-7]])
        self.book.set_formula("A2", "=[.A1]+[.B1]")
        self.assertEqual(self.book.show("A1:C1"), [["0.1", "0.2", "0.0000001"]])
        self.assertEqual(self.book.value("A2"), Fraction(3, 10))

    def test_kinds_of_formulas(self) -> None:
        formulas = {
            '="5"&""': "5",
            "=2+3": Fraction(5),
            "=1=1": True,
            '="TRUE"&""': "TRUE",
            "=NA()": CellError("#N/A"),
            '="#N/A"&""': "#N/A",
            '=""&""': "",
            "=1/0": CellError("#DIV/0!"),
        }
        for formula, wanted in formulas.items():
            with self.subTest(formula):
                self.book.set_formula("A1", formula)
                self.assert_same(self.book.value("A1"), wanted)
                self.assertEqual(self.book.formula("A1"), formula)

    def test_cells_by_brackets(self) -> None:
        self.book["B1"] = 5
        self.book["B2"] = Formula("=[.B1]*2")
        self.assertEqual((self.book["B1"], self.book["b2"]), (5, 10))
        self.assertEqual(self.book["A1:B2"], [[None, 5], [None, 10]])
        del self.book["B1"]
        self.assertEqual(self.book["B1:B2"], [[None], [0]])
        self.book["B1"] = None
        self.assertIsNone(self.book["B1"])

    def test_rectangles_by_brackets(self) -> None:
        self.book["A1:B2"] = 7
        self.assertEqual(self.book["A1:B2"], [[7, 7], [7, 7]])
        self.book["A1:A2"] = [1, 2]
        self.book["B1:B2"] = [[3], ["x"]]
        self.assertEqual(self.book["A1:B2"], [[1, 3], [2, "x"]])
        self.book["C1"] = [8, 9]
        self.book["C2"] = [[True, None]]
        self.assertEqual(self.book["C1:D2"], [[8, 9], [True, None]])
        del self.book["A1:D1"]
        self.assertEqual(self.book["A1:D1"], [[None] * 4])

    def test_what_no_brackets_take(self) -> None:
        wrongs: list[tuple[Any, type[Exception]]] = [("price", ValueError), (1, TypeError), (("A1", "B1"), TypeError), (slice(1, 2), TypeError)]
        for wrong, error in wrongs:
            with self.assertRaises(error):
                self.book[wrong]
            with self.assertRaises(error):
                self.book[wrong] = 1
        with self.assertRaisesRegex(ValueError, "2 rows of 1 are to be filled"):
            self.book["A1:A2"] = [[1], [2], [3]]
        with self.assertRaisesRegex(ValueError, r"Formula\(..\) is one"):
            self.book["A1"] = "=[.B1]"
        book: Any = self.book
        with self.assertRaises(TypeError):
            list(book)
        self.assertEqual(self.book["A1:A3"], [[None]] * 3)

    def test_flat_lists_and_other_rows(self) -> None:
        self.book.put("A1", [1, 2, "x"])
        self.book.put("A2", ((4, 5), (row for row in (6, 7))))
        self.assertEqual(self.book["A1:C3"], [[1, 2, "x"], [4, 5, None], [6, 7, None]])
        for wrong in ("text", {"a": 1}, 5):
            with self.assertRaises(TypeError):
                self.book.put("A1", wrong)
        with self.assertRaisesRegex(TypeError, "row 2 is no list"):
            self.book.put("A1", [[1], 2])

    def test_formulas_among_rows(self) -> None:
        self.book["A1"] = [["a", 2], ["b", Formula("=[.B1]*21")], ["c", "007"]]
        self.assertEqual(self.book["B1:B3"], [[2], [42], ["007"]])

    def test_a_bad_value_in_a_table_changes_nothing(self) -> None:
        self.book.set("A1", "before")
        for bad in (float("nan"), 2**127, object(), "=1+1", CellError("#N/A"), "\ud800"):
            with self.subTest(bad), self.assertRaises((TypeError, ValueError)) as caught:
                self.book.put("A1", [["after", 1], [2, bad]])
            if bad != "\ud800":
                self.assertIn("B2", str(caught.exception))
        self.assertEqual(self.book.show("A1:B2"), [["before", ""], ["", ""]])

    def test_a_bad_value_in_a_cell(self) -> None:
        for bad in (float("inf"), Fraction(1, 2**127), "=A1"):
            with self.subTest(bad), self.assertRaises(ValueError):
                self.book.set("A1", bad)
        self.assertIsNone(self.book.value("A1"))

    def test_a_row_without_values_is_refused(self) -> None:
        with self.assertRaisesRegex(ValueError, "row 2"):
            self.book.put("A1", [[1], [], [3]])
        self.book.put("A1", [[1], [None], [3]])
        self.assertEqual(self.book.show("A1:A3"), [["1"], [""], ["3"]])

    def test_nothing_to_put(self) -> None:
        self.book.put("A1", [])
        self.assertEqual(self.book.show("A1"), [[""]])

    def test_clear_and_fill(self) -> None:
        self.book.put("A1", [[1], [2], [3]])
        self.book.set_formula("B1", "=[.A1]*10")
        self.book.fill("B1", "B2:B3")
        self.assertEqual(self.book.values("B1:B3"), [[10], [20], [30]])
        self.book.clear("A2")
        self.assertEqual(self.book.values("A2:B2"), [[None, 0]])

    def test_a_refused_command_among_many(self) -> None:
        for row in range(1, 101):
            if row == 50:
                with self.refused("E05", "A50"):
                    self.book.set_formula("A50", "=A1+1")
            else:
                self.book.set(f"A{row}", row)
        self.book.set_formula("B1", "=SUM([.A1:.A100])")
        self.assertEqual(self.book.value("B1"), 5050 - 50)

    def test_refusals_say_what_and_where(self) -> None:
        with self.refused("E04", "ZZZ1"):
            self.book.set("ZZZ1", 1)
        with self.refused("E15", "A1:Z9999"):
            self.book.show("A1:Z9999")
        with self.refused("E02"):
            self.book.command("sett A1 1")

    def test_one_command_is_one_line(self) -> None:
        for line in ("show A1\nclear A1", "csv A1 2", "csv A1 2\n1\n2"):
            with self.assertRaises(ValueError):
                self.book.command(line)
        self.assertEqual(self.book.command("# a comment"), [])
        self.assertEqual(self.book.command("  "), [])
        with self.assertRaises(ValueError):
            self.book.set_formula("A1", "=1\nclear A1")


if __name__ == "__main__":
    unittest.main()
