"""Numbers as they are drawn, and the names of cells."""

from __future__ import annotations

import random
import unittest
from fractions import Fraction

from drawings import number
from whatif.drawing import Names
from whatif.drawing.values import drawn, exact, extremes, places_for, shown


class Numbers(unittest.TestCase):
    def test_what_is_drawn_is_near(self) -> None:
        """A drawn number is within half a unit of its last place, says whether it is exact, and is 0 for 0 alone."""
        random.seed(80)
        for _ in range(3000):
            value = Fraction(random.randint(-(10**12), 10**12), random.choice((1, 2, 3, 7, 10, 100, 10**6, 10**15)))
            places = random.randint(0, 8)
            told = drawn(value, places)
            read = number(told.text)
            used = len(told.text.partition(".")[2])
            self.assertLessEqual(abs(read - value), Fraction(1, 2 * 10**used))
            self.assertEqual(told.is_exact, read == value)
            self.assertEqual(read == 0, value == 0)

    def test_neighbours_are_told_apart(self) -> None:
        random.seed(81)
        for _ in range(500):
            base = Fraction(random.randint(-(10**9), 10**9), random.choice((1, 3, 7)))
            values = [base + Fraction(random.randint(0, 1000), random.choice((1, 9, 10**5))) for _ in range(5)]
            places = places_for(values)
            self.assertEqual(len({drawn(value, places).text for value in values}), len(set(values)))

    def test_places(self) -> None:
        cases: list[tuple[list[str], int]] = [
            (["4.2", "4.8", "6"], 1),
            (["0.0425", "0.055", "-0.0125"], 4),
            (["92", "140"], 0),
            (["1234.5678", "2345.1"], 0),
            (["1/3", "2/3"], 4),
            (["1000000/3", "1000001/3"], 0),
            (["1000000/3", "10000001/30"], 1),
            (["0"], 0),
            ([], 0),
        ]
        for texts, places in cases:
            self.assertEqual(places_for([exact(text) or Fraction(0) for text in texts]), places, texts)
        self.assertEqual(places_for([Fraction(1, 3)], 9), 9)

    def test_shown(self) -> None:
        """Values are the texts that the program shows for them, and only those texts are numbers."""
        for text in ("0.32", "12/7", "-13.2", "0", "1000000", "-1/3", "0.000001"):
            self.assertEqual(shown(exact(text)), text)
        for text in ("007", "1.50", "+5", "1e6", ".5", "5.", "1/0", "1/07", "\u0665", "--1", "", "TRUE", "1 000"):
            self.assertIsNone(exact(text), text)

    def test_extremes(self) -> None:
        """They are exact, also of numbers that are one in floating point."""
        random.seed(82)
        for _ in range(500):
            base = random.choice((Fraction(0), Fraction(1, 3), Fraction(-(10**30), 7), Fraction(2**60)))
            numbers = [base + Fraction(random.randint(-3, 3), random.choice((1, 7, 10**20))) for _ in range(random.randint(1, 6))]
            self.assertEqual(extremes(numbers), (min(numbers), max(numbers)))


class NamesOfCells(unittest.TestCase):
    def test_names(self) -> None:
        """The text at the left, with values or a gap between but not both; and the last text at the top of the list."""
        cells = {"A1": "Q1", "B1": "2026", "C1": "cost", "A2": "kind", "C2": "EUR", "A3": "plum", "B3": 1, "C3": 2, "D3": 3}
        cells.update({"A4": "fig", "C4": 8, "D4": 4, "A5": "nut", "B5": 5, "C5": "n/a", "D5": 6, "E5": "a  long\nname", "F5": 7})
        cells.update({"C6": 9, "A9": "far", "E9": 1})
        places = {(int(at[1:]), ord(at[0]) - 64): value for at, value in cells.items()}
        names = Names(lambda row, column: text_of(places.get((row, column))), lambda row, column: (row, column) in places)
        wanted = {"C3": "plum \u00b7 EUR", "D3": "plum", "B3": "plum", "C4": "fig \u00b7 EUR", "C6": "EUR", "D5": "n/a"}
        wanted.update({"F5": "a long name", "B9": "far"})
        wanted.update(dict.fromkeys(("D4", "E9", "Z1", "x"), ""))
        self.assertEqual({at: names.at(at) for at in wanted}, wanted)


def text_of(value: object) -> str | None:
    return value if isinstance(value, str) else None


if __name__ == "__main__":
    unittest.main()
