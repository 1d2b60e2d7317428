"""How values are spelled and read."""

import doctest
import unittest
from datetime import date, datetime, timezone
from decimal import Decimal
from fractions import Fraction

import whatif
from whatif import CellError, Text, addresses, answers, html, journal, references, refusals, rows, scenario, script, session, spelling, values
from whatif.spelling import Spelling

MODULES = (whatif, addresses, answers, html, journal, references, refusals, rows, scenario, script, session, spelling, values)


def load_tests(loader: unittest.TestLoader, tests: unittest.TestSuite, pattern: object) -> unittest.TestSuite:
    for module in MODULES:
        tests.addTests(doctest.DocTestSuite(module))
    return tests


class SpelledTest(unittest.TestCase):
    def test_numbers_are_exact(self) -> None:
        spelled = {
            7: "7",
            -3: "-3",
            0.1: "0.1",
            0.1 + 0.2: "0.3",
            1e-7: "0.0000001",
            1e16: "10000000000000000",
            -0.0: "0",
            2.0**53 - 1: "9007199254740991",
            Decimal("12.50"): "12.5",
            Decimal("0.30000000000000004"): "0.30000000000000004",
            Decimal("1E+3"): "1000",
            Fraction(2, 6): "1/3",
            Fraction(1, 2**40): f"1/{2**40}",
            2**127 - 1: str(2**127 - 1),
        }
        for value, text in spelled.items():
            with self.subTest(value):
                self.assertEqual(Spelling().plain(value), text)

    def test_digits_of_a_float(self) -> None:
        self.assertEqual(Spelling(digits=17).plain(0.1 + 0.2), "0.30000000000000004")
        self.assertEqual(Spelling(digits=17).plain(0.1), "0.1")
        self.assertEqual(Spelling(digits=3).plain(2 / 3), "0.667")

    def test_dates(self) -> None:
        days = Spelling(epoch=date(1899, 12, 30))
        self.assertEqual(days.plain(date(2026, 1, 1)), "46023")
        self.assertEqual(days.plain(datetime(2026, 1, 1, 18)), "46023.75")
        self.assertEqual(days.plain(date(1899, 12, 29)), "-1")
        with self.assertRaisesRegex(TypeError, "is a date, .* Workbook"):
            Spelling().plain(date(2026, 1, 1))
        with self.assertRaisesRegex(TypeError, "time zone"):
            days.plain(datetime(2026, 1, 1, tzinfo=timezone.utc))

    def test_truth_values(self) -> None:
        self.assertEqual((Spelling().plain(True), Spelling().plain(False)), ("TRUE", "FALSE"))

    def test_what_is_no_number_is_refused(self) -> None:
        for value in (float("nan"), float("inf"), -float("inf"), Decimal("NaN"), Decimal("Infinity")):
            with self.subTest(value), self.assertRaises(ValueError):
                Spelling().plain(value)

    def test_what_does_not_fit_is_refused(self) -> None:
        for value in (2**127, -(2**127), Fraction(1, 2**127), 1e300, 1e-300):
            with self.subTest(value), self.assertRaisesRegex(ValueError, "fit"):
                Spelling().plain(value)

    def test_other_types_are_refused(self) -> None:
        for value in (1j, b"5", object(), [1], CellError("#N/A")):
            with self.subTest(value), self.assertRaises(TypeError):
                Spelling().plain(value)

    def test_texts_that_spell_another_value(self) -> None:
        for text in ("", "5", "007", "+1", "-2.5", "1/3", "1/03", "TRUE", "FALSE"):
            self.assertTrue(spelling.spells_another(text), text)
        for text in ("12,5", "1/0", ".5", "5.", "1e3", " 5", "5 ", "true", "12%", "\u0665", "5\n"):
            self.assertFalse(spelling.spells_another(text), text)

    def test_a_text_that_begins_like_a_formula(self) -> None:
        for text in ("=A1", "of:=1"):
            with self.assertRaisesRegex(ValueError, "formula"):
                spelling.checked_text(text)
            self.assertEqual(spelling.checked_text(Text(text)), text)


class ReadTest(unittest.TestCase):
    def test_a_long_row_of_digits_is_a_text(self) -> None:
        self.assertEqual(values.read("9" * 5000), "9" * 5000)

    def test_decimals_that_end(self) -> None:
        for number in (Fraction(1, 2**126), Fraction(2**127 - 1, 5**54), Fraction(-7, 20), Fraction(10**38)):
            self.assertEqual(Fraction(values.decimal(number)), number)
        with self.assertRaisesRegex(ValueError, "numbers=Fraction"):
            values.decimal(Fraction(1, 3))

    def test_an_error_is_no_text(self) -> None:
        self.assertNotEqual(values.read("#N/A"), "#N/A")


class AddressTest(unittest.TestCase):
    def test_columns_go_there_and_back(self) -> None:
        for column in (1, 26, 27, 52, 53, 702, 703, 16384):
            self.assertEqual(addresses.place_of(f"{addresses.column_name(column)}9"), (column, 9))

    def test_no_address(self) -> None:
        for text in ("", "A", "A0", "7", "A1 2", "AAAA1", "$A$1"):
            with self.assertRaises(ValueError):
                addresses.place_of(text)


if __name__ == "__main__":
    unittest.main()
