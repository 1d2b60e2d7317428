"""`whatif.sweep`: a DataFrame or a list of rows in, the same out."""

import os
import random
import unittest
from collections.abc import Callable
from concurrent.futures import Future, ThreadPoolExecutor
from datetime import date
from fractions import Fraction
from importlib.util import find_spec
from typing import Any
from unittest import mock

import whatif
from tests.sweep.sweeping import SOLAR, SOLAR_CELLS, SweepTest, solar_sets
from tests.support.program import PROGRAM
from tests.support.solar import left


def rows(count: int) -> list[dict[str, str]]:
    _, *lines = solar_sets(100_000)
    some = random.Random(3).sample(lines, count)
    return [dict(zip(("name", *SOLAR_CELLS), line.split(","))) for line in some]


class Here:
    """The least that an executor has: it runs a call at once."""

    def __init__(self) -> None:
        self.calls = 0

    def submit(self, function: Callable[..., object], *arguments: object) -> "Future[object]":
        self.calls += 1
        future: Future[object] = Future()
        future.set_result(function(*arguments))
        return future


class Stops(Here):
    """It runs three calls, and then none."""

    def submit(self, function: Callable[..., object], *arguments: object) -> "Future[object]":
        if self.calls < 3:
            return super().submit(function, *arguments)
        future: Future[object] = Future()
        future.set_exception(OSError("no more"))
        return future


class RowsTest(SweepTest):
    def test_fractions_as_python_has_them(self) -> None:
        given = rows(200)
        typed: list[dict[str, object]] = [{**{cell: Fraction(row[cell]) for cell in SOLAR_CELLS}, "name": row["name"]} for row in given]
        found = whatif.sweep(SOLAR, typed, ["B10"], labels=["name"], numbers=Fraction, jobs=2)
        self.assertEqual(found, [{"name": row["name"], "B10": left(*(row[cell] for cell in SOLAR_CELLS))} for row in given])

    def test_any_executor(self) -> None:
        here = Here()
        with ThreadPoolExecutor(2) as threads:
            given = [{"B1": it, "B2": 0.5} for it in range(1, 100)]
            wanted = [{"B4": it / 2, "B7": 100 / it} for it in range(1, 100)]
            for executor in (None, threads, here):
                self.assertEqual(whatif.sweep(self.model, given, ["B4", "B7"], executor, chunk=3), wanted)
        self.assertEqual(here.calls, 33)

    def test_what_was_done_is_kept(self) -> None:
        given = [{"B1": it, "B3": f"n{it}"} for it in range(1, 100)]
        wanted = [{"B5": f"n{it} {it}", "B4": Fraction(it * 32, 100)} for it in range(1, 100)]
        more: dict[str, Any] = {"numbers": Fraction, "resume": self.folder / "work", "chunk": 10}
        with self.assertRaisesRegex(RuntimeError, "7 chunks have no results; the first is that of row 30: no more"):
            whatif.sweep(self.model, given, ["B5", "B4"], Stops(), **more)
        here = Here()
        self.assertEqual(whatif.sweep(self.model, given, ["B5", "B4"], here, **more), wanted)
        self.assertEqual(here.calls, 7)
        with self.assertRaisesRegex(whatif.WrongSweep, "is another sweep: it differs in the sets"):
            whatif.sweep(self.model, given[:50], ["B5", "B4"], here, **more)

    def test_a_workbook_as_the_model(self) -> None:
        with mock.patch.dict(os.environ, WHATIF="/none"), whatif.Workbook(PROGRAM, epoch=date(2026, 1, 1)) as book:
            book.load(self.model)
            book["B2"] = 2
            found = whatif.sweep(book, [{"B1": 3}, {"B1": 0.1 + 0.2}, {"B1": date(2026, 1, 11)}], ["B4"], jobs=1, numbers=Fraction)
        self.assertEqual(found, [{"B4": 6}, {"B4": Fraction(6, 10)}, {"B4": 20}])
        with self.assertRaisesRegex(whatif.WrongSweep, "B1: row 0: .*is a date"):
            whatif.sweep(self.model, [{"B1": date(2026, 1, 11)}], ["B4"])

    def test_kinds(self) -> None:
        given = [{"B1": 1, "B3": "=[.B1]", "C1": False}, {"B1": 2, "B3": '007 "x", y', "C1": True}]
        found = whatif.sweep(self.model, given, ["B5", "B6", "B7"], jobs=1)
        self.assertEqual(found, [{"B5": "=[.B1] 1", "B6": 2.0, "B7": 100.0}, {"B5": '007 "x", y 2', "B6": 1.0, "B7": 50.0}])

    def test_errors_are_values(self) -> None:
        self.assertEqual(whatif.sweep(self.model, [{"B1": 0}], ["B7"], jobs=1), [{"B7": whatif.CellError("#DIV/0!")}])

    def test_rows_without_a_result(self) -> None:
        given = [{"B3": "a"}, {"B3": "b" * 40_000}, {"B3": "c"}]
        with self.assertRaises(whatif.SetsFailed) as caught:
            whatif.sweep(self.model, given, ["B5"], jobs=1)
        self.assertEqual(list(caught.exception.failures), [1])
        self.assertIn("refused E08", caught.exception.failures[1])
        self.assertEqual(whatif.sweep(self.model, given, ["B5"], jobs=1, errors="drop"), [{"B5": "a 250"}, {"B5": "c 250"}])

    def wrong(self, given: object, *words: Any, **more: Any) -> str:
        with self.assertRaises(whatif.WrongSweep) as caught:
            whatif.sweep(self.model, given, *(words or (["B4"],)), jobs=1, **more)
        return str(caught.exception)

    def test_wrong_sweeps(self) -> None:
        self.assertIn("the frame has texts, and the model numbers", self.wrong([{"B1": "5"}]))
        self.assertIn("labels=['site']", self.wrong([{"B1": 5, "site": "x"}]))
        self.assertIn("row 1 has no value", self.wrong([{"B1": 5}, {"B1": None}]))
        self.assertIn("row 1 has no value", self.wrong([{"B1": 5.0}, {"B1": float("nan")}]))
        self.assertIn("numbers and texts", self.wrong([{"B1": 5}, {"B1": "x"}]))
        self.assertIn("line break", self.wrong([{"B3": "a\nb"}], ["B5"]))
        self.assertIn("no output depends on B9", self.wrong([{"B9": 5}]))
        self.assertIn("no scenario", self.wrong([{"B1": 5}], scenario="none"))
        self.assertIn("no column", self.wrong([]))


@unittest.skipUnless(find_spec("pandas"), "pandas isn't installed")
class FrameTest(SweepTest):
    def test_a_frame(self) -> None:
        import pandas

        frame = pandas.DataFrame({"B1": [400, 0, 650], "site": ["x", "y", "z"], "B2": [0.28, 0.1, 0.45]}, index=["a", "b", "c"])
        found = whatif.sweep(self.model, frame, ["B4", "B7"], labels=["site"], jobs=2)
        self.assertEqual((list(found.columns), list(found.index)), (["site", "B4", "B7"], ["a", "b", "c"]))
        self.assertEqual(found["B4"].tolist(), [112.0, 0.0, 292.5])
        self.assertEqual((found["site"].tolist(), found["B7"]["b"]), (["x", "y", "z"], whatif.CellError("#DIV/0!")))

    def test_an_empty_frame(self) -> None:
        import pandas

        found = whatif.sweep(self.model, pandas.DataFrame({"B1": []}), ["B4"], jobs=1)
        self.assertEqual((len(found), list(found.columns)), (0, ["B4"]))


if __name__ == "__main__":
    unittest.main()
