"""DataFrames, Series and NumPy's values, in and out; skipped where pandas isn't installed."""

import unittest
from datetime import date
from decimal import Decimal
from fractions import Fraction

from books import difference
from whatif import CellError, Formula, Workbook

try:
    import numpy
    import pandas
except ImportError:
    pandas = None


@unittest.skipIf(pandas is None, "pandas isn't installed")
class PandasTest(unittest.TestCase):
    def setUp(self) -> None:
        self.book = Workbook(epoch=date(1899, 12, 30))
        self.addCleanup(self.book.close)

    def tariff(self) -> None:
        self.book["A1"] = [["consumption", 250], ["price", 0.32], ["fee", 12], ["bill", Formula("=[.B1]*[.B2]+[.B3]")]]


class InTest(PandasTest):
    def test_a_frame_goes_round(self) -> None:
        frame = pandas.DataFrame({"item": ["bolt, M6", "007"], "price": [0.12, 1e-7], "pieces": [400.0, numpy.nan], "in stock": [True, False]})
        self.book["B2"] = frame
        self.assertEqual(self.book["B3:E3"], [["bolt, M6", Fraction(3, 25), 400, True]])
        self.assertEqual(self.book["B4:E4"], [["007", Fraction(1, 10**7), None, False]])
        pandas.testing.assert_frame_equal(self.book.frame("B2:E4"), frame)
        self.book["B2"] = self.book.frame("B2:E4")
        pandas.testing.assert_frame_equal(self.book.frame("B2:E4"), frame)

    def test_missing_values_are_empty_cells(self) -> None:
        for missing in (float("nan"), pandas.NA, pandas.NaT, None):
            self.book["B2:B3"] = 7
            self.book["A1"] = pandas.DataFrame({"a": [1, 2], "b": pandas.Series([1, missing], dtype=object)})
            self.assertEqual(self.book["A2:B3"], [[1, 1], [2, None]])
        for missing in (float("nan"), pandas.NA, pandas.NaT, numpy.datetime64("NaT"), numpy.float32("nan")):
            with self.assertRaisesRegex(ValueError, "no value that a cell can hold; None is an empty cell"):
                self.book["A1"] = missing
        with self.assertRaisesRegex(ValueError, "^B3: "):
            self.book["A1"] = pandas.DataFrame({"a": [1, 2], "b": [1, numpy.inf]})

    def test_types_of_columns(self) -> None:
        frame = pandas.DataFrame(
            {
                "n": pandas.array([1, None], dtype="Int64"),
                "c": pandas.Categorical(["x", None]),
                "s": pandas.array(["5", None], dtype="string"),
                "b": pandas.array([True, None], dtype="boolean"),
                "f": pandas.array([0.1, None], dtype="Float64"),
                "d": [pandas.Timestamp("2026-01-01 06:00"), pandas.NaT],
                "i": numpy.array([3, 4], dtype="int8"),
            }
        )
        self.book.put("A1", frame)
        self.assertEqual(self.book["A1:G1"], [["n", "c", "s", "b", "f", "d", "i"]])
        self.assertEqual(self.book["A2:G2"], [[1, "x", "5", True, Fraction(1, 10), Fraction("46023.25"), 3]])
        self.assertEqual(self.book["A3:G3"], [[None, None, None, None, None, None, 4]])

    def test_names_and_indexes(self) -> None:
        frame = pandas.DataFrame([[1, 2], [3, 4]], columns=[0.34, "x"], index=["a", "b"])
        self.book.put("A1", frame, index=True)
        self.assertEqual(self.book["A1:C3"], [["index", Fraction(17, 50), "x"], ["a", 1, 2], ["b", 3, 4]])
        self.book.put("A5", frame, header=False)
        self.assertEqual(self.book["A5:B6"], [[1, 2], [3, 4]])

    def test_a_series_is_a_column(self) -> None:
        self.book["A1"] = pandas.Series([1, None], name="pieces")
        self.book["B1"] = pandas.Series([3, 4])
        self.book["C1"] = pandas.Index([5, 6], name="at")
        self.book["D1:D2"] = pandas.Series([7, 8])
        self.assertEqual(self.book["A1:D3"], [["pieces", 3, "at", 7], [1, 4, 5, 8], [None, None, 6, None]])

    def test_arrays(self) -> None:
        self.book["A1"] = numpy.array([[1.5, 2], [3, 4]])
        self.book["A3"] = numpy.arange(2)
        self.assertEqual(self.book["A1:B3"], [[Fraction(3, 2), 2], [3, 4], [0, 1]])

    def test_numbers_of_numpy(self) -> None:
        for value, wanted in (
            (numpy.int64(7), 7),
            (numpy.uint8(255), 255),
            (numpy.float64(0.1), Fraction(1, 10)),
            (numpy.float64(0.1) + 0.2, Fraction(3, 10)),
            (numpy.float32(0.1), Fraction(1, 10)),
            (numpy.bool_(True), True),
            (numpy.datetime64("2026-01-01"), 46023),
            (pandas.Timestamp("2026-01-01 12:00"), Fraction(92047, 2)),
        ):
            self.book["A1"] = value
            self.assertEqual(self.book["A1"], wanted)

    def test_dates_need_an_epoch(self) -> None:
        with Workbook() as book:
            with self.assertRaisesRegex(TypeError, "^A2: .*epoch"):
                book["A1"] = pandas.DataFrame({"day": pandas.to_datetime(["2026-01-01"])})
            self.assertIsNone(book["A1"])

    def test_what_cant_go_round(self) -> None:
        for wrong in (CellError("#N/A"), 1j, pandas.Timedelta("1h"), [1]):
            with self.assertRaisesRegex(TypeError, "^A2: "):
                self.book["A1"] = pandas.DataFrame({"a": [wrong]})


class OutTest(PandasTest):
    def test_numbers_by_choice(self) -> None:
        self.tariff()
        for numbers, wanted in ((float, 0.32), (Decimal, Decimal("0.32")), (Fraction, Fraction(8, 25))):
            frame = self.book.frame("A1:B4", numbers, header=False)
            self.assertEqual((frame["B"][1], type(frame["B"][1])), (wanted, numpy.float64 if numbers is float else numbers))
        self.book["B1"] = Fraction(1, 3)
        with self.assertRaisesRegex(ValueError, "1/3 has no end as a decimal: numbers=Fraction"):
            self.book.frame("A1:B4", Decimal)

    def test_columns_have_numbers_as_names(self) -> None:
        self.book["A1"] = [[None, 0.34, 0.38], [1, 2, 3]]
        self.assertEqual(list(self.book.frame("A1:C2").columns), ["A", 0.34, 0.38])

    def test_a_table(self) -> None:
        self.tariff()
        frame = self.book.table("B4", "B1", [250, 400], "B2", [0.32, 0.28]).frame()
        self.assertEqual((frame.index.name, frame.columns.name), ("consumption", "price"))
        self.assertEqual((list(frame.index), list(frame.columns), frame.loc[400, 0.28]), ([250, 400], [0.32, 0.28], 124))
        one = self.book.table("B4", "B1", [250, 400]).frame(Decimal)
        self.assertEqual((list(one.columns), one["bill"].tolist()), (["bill"], [Decimal(92), Decimal(140)]))
        self.assertEqual(len(self.book.table("B4", "B1", []).frame()), 0)

    def test_a_comparison_and_scenarios(self) -> None:
        self.tariff()
        self.book.scenario("winter", {"B1": 400})
        compared = self.book.compare(None, "winter", "A1:B4")
        self.assertEqual(compared[1], difference("B4", 92, 140, 48))
        frame = compared.frame()
        self.assertEqual((list(frame.index), list(frame.columns)), (["consumption", "bill"], ["sheet", "winter", "difference"]))
        self.assertEqual(frame.loc["bill"].tolist(), [92, 140, 48])
        frame = self.book.scenarios("B1:B4").frame()
        self.assertEqual((frame.loc["bill", "winter"], list(frame.columns)), (140, ["sheet", "winter"]))

    def test_changes_and_errors(self) -> None:
        self.book["A1"] = [[1, Formula("=1/0")]]
        frame = self.book.changes().frame()
        self.assertEqual((frame.loc["A1", "value"], frame.loc["B1", "value"]), (1, CellError("#DIV/0!")))

    def test_sensitivity(self) -> None:
        self.tariff()
        frame = self.book.sensitivity("B4").frame()
        self.assertEqual(list(frame.columns), ["value", "bill at -10%", "bill at +10%", "spread"])
        self.assertEqual(frame.loc["fee", "spread"], 2.4)


if __name__ == "__main__":
    unittest.main()
