"""The drawings' numbers are read out of them and compared with exact ones, which are worked out here by fractions."""

from __future__ import annotations

import csv
import io
import math
import re
import unittest
from collections.abc import Callable
from fractions import Fraction
from urllib.parse import unquote

from drawings import Scales, classes, map_classes, number, of_class, rows, tree, words
from whatif.drawing import Bar, Label, State, changes_html, comparison_html, scenarios_html, sheet_html, table_html, tornado_html
from whatif.drawing.colours import LEVELS
from whatif.drawing.values import shown

GOAL, PIECES, PRICE = Label("B5", "profit"), Label("B1", "pieces sold"), Label("B2", "price of a piece")


def profit(pieces: Fraction, price: Fraction) -> Fraction:
    return pieces * (price - 5) - 12000


def profits(pieces: list[int], prices: list[int]) -> list[list[object]]:
    rows: list[list[object]] = [[None, *map(Fraction, prices)]]
    rows += [[Fraction(p), *(profit(Fraction(p), Fraction(q)) for q in prices)] for p in pieces]
    return rows


class Tables(unittest.TestCase):
    PIECES, PRICES = [2000, 3000, 4000, 5000, 8000], [7, 8, 10]

    def setUp(self) -> None:
        self.html = table_html(profits(self.PIECES, self.PRICES), GOAL, PIECES, PRICE, now=["5000", "8"], cells=["D2:D6", "E1:G1"])
        self.tree = tree(self.html)

    def test_entries(self) -> None:
        """Each entry has its exact number, the colour of its size, and a frame where it is today's."""
        low, high = profit(Fraction(2000), Fraction(7)), profit(Fraction(8000), Fraction(10))
        lines = list(self.tree.iter("tr"))[2:]
        framed = []
        for line, pieces in zip(lines, self.PIECES):
            self.assertEqual(number(words(line[0])), pieces)
            for cell, price in zip(line[1:], self.PRICES):
                value = profit(Fraction(pieces), Fraction(price))
                self.assertEqual((cell.get("title"), number(words(cell))), (str(value), value))
                step = math.ceil(abs(value) / max(-low, high) * LEVELS)
                self.assertIn(f"{'a' if value > 0 else 'b'}{step}" if value else "n", classes(cell))
                framed += [(pieces, price)] if "here" in classes(cell) else []
        self.assertEqual((len(lines), framed), (5, [(5000, 8)]))

    def test_curves(self) -> None:
        """A line for each price, whose points are the entries."""
        svg = next(self.tree.iter("svg"))
        scales = Scales(svg)
        lines = of_class(svg, "polyline", "line")
        self.assertEqual([line.get("data-of") for line in lines], ["7", "8", "10"])
        for line, price in zip(lines, self.PRICES):
            points = list(scales.points(line))
            self.assertEqual(len(points), 5)
            for (x, y), pieces in zip(points, self.PIECES):
                self.assertAlmostEqual(x, pieces, delta=0.4)
                self.assertAlmostEqual(y, float(profit(Fraction(pieces), Fraction(price))), delta=2)
        self.assertEqual([words(head) for head in of_class(svg, "text", "head")], ["7", "8", "10"])

    def test_break_even(self) -> None:
        """Where a line crosses 0 is told exactly in the title; it has a sign unless an entry says so."""
        svg = next(self.tree.iter("svg"))
        told = {node.get("title"): words(node) for node in self.tree.iter("span") if node.get("title")}
        self.assertEqual(told, {"6000": "\u2248\u202f6\u202f000", "4000": "4\u202f000", "2400": "\u2248\u202f2\u202f400"})
        for price in self.PRICES:
            self.assertIn(str(Fraction(12000) / (price - 5)), told)
        scales = Scales(svg)
        rings = sorted(scales.x[0] + scales.x[1] * float(ring.get("cx", "")) for ring in of_class(svg, "circle", "ring"))
        for ring, at in zip(rings, (2400, 4000, 6000)):
            self.assertAlmostEqual(ring, at, delta=0.4)

    def test_one_input(self) -> None:
        found = tree(table_html([["1", "1/3"], ["2", "2/3"], ["4", "#DIV/0!"], ["3", "1"]], GOAL, PIECES, cells=["H2:H5"], now=["2"]))
        self.assertEqual(rows(next(found.iter("table")))[1:], [["1", "1/3"], ["2", "2/3"], ["4", "#DIV/0!"], ["3", "1"]])
        self.assertIn("One entry shows an error: #DIV/0! at pieces sold 4 (H4)", words(found))
        svg = next(found.iter("svg"))
        self.assertEqual([round(y, 2) for _, y in Scales(svg).points(of_class(svg, "polyline", "line")[0])], [0.33, 0.67, 1.0])

    def test_errors_are_named_by_their_cells(self) -> None:
        """Columns are counted on behind Z."""
        found = table_html([["", "1", "2"], ["10", "5", "#N/A"]], "B9", "B1", "B2", cells=["H2:H2", "Z1:AA1"])
        self.assertIn("One entry shows an error: #N/A at B1 10 (H2), B2 2 (AA1)", words(tree(found)))

    def test_alike(self) -> None:
        self.assertIn("All answers are alike: does B5 depend on B1?", table_html([["1", "7"], ["2", "7"]], GOAL, PIECES))
        for other in ([["1", "7"], ["2", "8"]], [["1", "7"]], [["1", "#N/A"], ["2", "#N/A"]]):
            self.assertNotIn("alike", table_html(other, GOAL, PIECES))

    def test_rounded_numbers_are_marked(self) -> None:
        """Each number in a drawing's text is exact, or has a sign; each in a table has the exact one as its title."""
        records = [["", "1/3", "2/3"], ["1/7", "-10/7", "5/7"], ["2/7", "1/9", "1/11"], ["3/7", "5/9", "100/7"]]
        found = tree(table_html(records, GOAL, PIECES, PRICE, now=["2/7", "1/3"]))
        exacts = {text for record in records for text in record}
        for cell in [*found.iter("td"), *found.iter("th")]:
            if re.search("[0-9]", words(cell)):
                self.assertIn(cell.get("title"), exacts)
        for text in [*of_class(found, "text", "head"), *of_class(found, "text", "crossing"), *of_class(found, "text", "halo")]:
            self.assertIn("\u2248", words(text))

    def test_empty(self) -> None:
        self.assertIn("no entry", table_html([], GOAL, PIECES))
        self.assertNotIn("<svg", table_html([["", "1"], ["a", "x"]], GOAL, PIECES, PRICE))


class LargeTables(unittest.TestCase):
    def test_heat_map(self) -> None:
        """50 by 60 entries are areas of colour, and their exact numbers a file in the page."""
        xs, ys = range(1, 51), range(1, 61)
        records: list[list[object]] = [[None, *map(Fraction, ys)]]
        records += [[Fraction(x), *("#N/A" if x == y else Fraction(x * y, 7) - 100 for y in ys)] for x in xs]
        found = tree(table_html(records, GOAL, PIECES, PRICE, now=["3", "4"]))
        low, high = Fraction(2, 7) - 100, Fraction(50 * 60, 7) - 100
        for x, line in zip(xs, map_classes(of_class(found, "svg", "map")[0])):
            for y, name in zip(ys, line):
                value = Fraction(x * y, 7) - 100
                step = math.ceil(abs(value) / max(-low, high) * LEVELS)
                self.assertEqual(name, "none" if x == y else f"{'a' if value > 0 else 'b'}{step}" if value else "", (x, y))
        here = of_class(found, "rect", "here")[0]
        self.assertEqual((here.get("x"), here.get("y")), ("3", "2"))
        data = unquote(next(link.get("href", "") for link in found.iter("a")).partition(",")[2])
        read = list(csv.reader(io.StringIO(data)))
        self.assertEqual(read[0], ["pieces sold", *map(str, ys)])
        self.assertEqual([[shown(value) for value in record] for record in records[1:]], read[1:])
        self.assertNotIn("<td", str(found))

    def test_long_list(self) -> None:
        """The ends of a long list are shown, all of it is a file, and the curve keeps its extremes."""
        records = [[str(n), shown(Fraction(n * (5000 - n), 3))] for n in range(1, 5001)]
        found = tree(table_html(records, GOAL, PIECES))
        shown_rows = rows(next(found.iter("table")))[1:]
        self.assertEqual((shown_rows[:15], shown_rows[-15:], len(shown_rows)), (records[:15], records[-15:], 31))
        self.assertIn("4,970 more", words(found))
        svg = next(found.iter("svg"))
        points = list(Scales(svg).points(of_class(svg, "polyline", "line")[0]))
        self.assertLess(len(points), 2000)
        self.assertAlmostEqual(max(y for _, y in points), 2500 * 2500 / 3, delta=2500 * 2500 / 3 / 1000)

    def test_many_crossings(self) -> None:
        found = tree(table_html([[str(n), str((-1) ** n)] for n in range(100)], GOAL, PIECES))
        self.assertEqual(len(of_class(found, "circle", "ring")), 8)
        self.assertIn("and 91 more", words(found))


class Others(unittest.TestCase):
    def test_comparison(self) -> None:
        records = [["B1", "180", "95", "-85"], ["B2", "1/3", "1/2", "1/6"], ["B3", "0", "5", "5"], ["B4", "x", "5", ""], ["B5", "-4", "-2", "2"]]
        found = tree(comparison_html(records, "-", "rain", labels={"B1": "customers"}))
        parts = {"B1": Fraction(-85, 180), "B2": Fraction(1, 2), "B5": Fraction(1, 2)}
        for line, record in zip(list(found.iter("tr"))[1:], records):
            self.assertEqual([cell.get("title") or words(cell) for cell in line[1:4]], record[1:])
            part = parts.get(record[0])
            percents = of_class(line, "small", "part")
            told = [Fraction(small.get("title", "").rstrip("%\u202f")) for small in percents if small.get("title")]
            self.assertEqual(told, [] if part is None else [part * 100])
            bars = list(line.iter("rect"))
            self.assertEqual(len(bars), 0 if part is None else 1)
            for bar in bars:
                assert part is not None
                x, wide = float(bar.get("x", "")), float(bar.get("width", ""))
                self.assertAlmostEqual(wide, float(abs(part) / Fraction(1, 2)) * 100, delta=0.01)
                self.assertAlmostEqual(x + wide if part < 0 else x, 100, delta=0.02)
        self.assertIn("Nothing differs", comparison_html([]))
        long = comparison_html([[f"A{n}", "1", "2", "1"] for n in range(1, 1000)])
        self.assertEqual([len(list(table.iter("tr"))) for table in tree(long).iter("table")], [41, 401])
        self.assertIn("559 more aren't drawn", words(tree(long)))

    def test_scenarios(self) -> None:
        """64 of them, each beside the sheet as it is."""
        states = [State("-", {"B9": "100", "B1": "7"})]
        states += [State(f"s{n}", {"B9": shown(Fraction(100 * n, 3)), "B1": "7"}, "s1" if n > 1 else "") for n in range(1, 65)]
        found = tree(scenarios_html(states, ["B9", "B1"], labels={"B9": "profit"}))
        lines = list(found.iter("tr"))[1:]
        self.assertEqual(len(lines), 65)
        for n, line in enumerate(lines):
            self.assertEqual(line[1].get("title"), shown(Fraction(100 * n, 3)) if n else "100")
            percents = [Fraction(small.get("title", "").rstrip("%\u202f")) for small in of_class(line, "small", "part") if small.get("title")]
            self.assertEqual(percents, [Fraction(100 * n, 3) - 100] if n not in (0, 3) else [])
        turned = list(tree(scenarios_html(states[:2], ["B9", "B1"])).iter("tr"))
        self.assertEqual([words(cell) for cell in turned[0]], ["cell", "as it is", "s1"])

    def test_tornado(self) -> None:
        """Bars from the result as it is to the lower and the higher one, the widest at the top."""
        inputs = {"B1": Fraction(5000), "B2": Fraction(8), "B3": Fraction(12000)}
        by, base = Fraction(1, 10), profit(Fraction(5000), Fraction(8))
        cases: dict[str, Callable[[Fraction], Fraction]]
        cases = {"B1": lambda v: profit(v, Fraction(8)), "B2": lambda v: profit(Fraction(5000), v), "B3": lambda v: 15000 - v}
        bars = []
        for at, value in inputs.items():
            low, high = value * (1 - by), value * (1 + by)
            bars.append(Bar(Label(at, f"input {at}"), value, low, high, shown(cases[at](low)), shown(cases[at](high))))
        bars.append(Bar(Label("B7"), Fraction(1), Fraction(1), Fraction(1), "3000", "3000"))
        bars.append(Bar(Label("B8", "rows"), Fraction(9), Fraction(8), Fraction(10), "1", "#REF!"))
        found = tree(tornado_html(GOAL, base, bars, by, remarks=["Years are left out."]))
        lines = list(found.iter("tr"))[1:]
        self.assertEqual([words(line[0]).split()[1] for line in lines], ["B2", "B1", "B3"])
        low, high = profit(Fraction(5000), Fraction(72, 10)), profit(Fraction(5000), Fraction(88, 10))
        for line, at in zip(lines, ("B2", "B1", "B3")):
            for rect, factor in zip(line.iter("rect"), (1 - by, 1 + by)):
                value = cases[at](inputs[at] * factor)
                left, wide = float(rect.get("x", "")), float(rect.get("width", ""))
                self.assertAlmostEqual(left, float((min(value, base) - low) / (high - low)) * 1000, delta=0.01)
                self.assertAlmostEqual(wide, float(abs(value - base) / (high - low)) * 1000, delta=0.01)
            titles = [line[n].get("title", "") for n in (1, 3)]
            self.assertEqual(titles, [f"{at} {shown(inputs[at] * f)}: {shown(cases[at](inputs[at] * f))}" for f in (1 - by, 1 + by)])
        self.assertIn("1 more input in reach doesn\u2019t move it.", words(found))
        still = tornado_html(GOAL, base, [bars[-2]] * 2, by)
        self.assertEqual(words(tree(still)), "2 inputs in reach don\u2019t move it.")
        self.assertIn("Not drawn: rows (B8), since 10 gives #REF!.", words(found))
        self.assertIn("Years are left out.", words(found))
        both_less = Bar(Label("B9"), Fraction(9), Fraction(8), Fraction(10), "-9000", "-8000")
        self.assertEqual(words(next(tree(tornado_html(GOAL, base, [*bars, both_less], by)).iter("tbody"))[0][0]), "B9 9")
        many = [Bar(Label(f"C{n}"), Fraction(n), Fraction(n), Fraction(n), str(3000 - n), str(3000 + n)) for n in range(1, 21)]
        self.assertEqual([len(list(table.iter("tr"))) for table in tree(tornado_html(GOAL, base, many, by)).iter("table")], [13, 9])

    def test_sheet(self) -> None:
        found = tree(sheet_html([["rent", "5"], ["", "1/3"]], "Z9:AA10", formulas={"AA10": "=[.A1]/3"}, texts={"AA9"}))
        self.assertEqual([words(cell) for cell in found.iter("th")], ["Z", "AA", "9", "10"])
        cells = list(found.iter("td"))[1:]
        text, formula = ((words(cell), cell.get("title"), cell.get("class")) for cell in (cells[1], cells[3]))
        self.assertEqual((text, formula), (("5", None, None), ("0.3333", "=[.A1]/3 \u2192 1/3", "n formula")))
        long = tree(sheet_html([[str(n)] for n in range(1000)], "A1:A1000"))
        self.assertEqual(len(list(long.iter("tr"))), 2 + 440)
        self.assertIn("all 1,000 rows as CSV", words(long))

    def test_changes(self) -> None:
        found = tree(changes_html([["B2", "", "900"], ["B3", "140", "160"]], labels={"B3": "heating"}))
        self.assertEqual(rows(next(found.iter("table")))[1:], [["B2", "", "900"], ["heating B3", "140", "160"]])


if __name__ == "__main__":
    unittest.main()
