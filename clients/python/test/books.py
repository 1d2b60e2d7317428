"""What the tests of workbooks share: a workbook, a tariff in it, and refusals that are expected."""

import unittest
from collections.abc import Iterator
from contextlib import contextmanager
from decimal import Decimal
from fractions import Fraction
from typing import Optional

from whatif import Difference, Refused, Workbook


class WorkbookTest(unittest.TestCase):
    def setUp(self) -> None:
        self.book = Workbook()
        self.addCleanup(self.book.close)

    def tariff(self) -> None:
        """A bill in B4: consumption B1 times price B2, and a fee B3."""
        self.book.put("A1", [["consumption", 250], ["price", Decimal("0.32")], ["fee", 12]])
        self.book.set_formula("B4", "=[.B1]*[.B2]+[.B3]")

    @contextmanager
    def refused(self, code: str, place: Optional[str] = None) -> Iterator[None]:
        """Expects a refusal of that code, and of that place if it is given."""
        with self.assertRaises(Refused) as caught:
            yield
        self.assertEqual(caught.exception.code, code)
        if place:
            self.assertEqual(caught.exception.place, place)


def difference(address: str, before: int, after: int, by: int) -> Difference:
    """A difference of whole numbers."""
    return Difference(address, Fraction(before), Fraction(after), Fraction(by))
