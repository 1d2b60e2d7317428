"""What whatif-report asks and draws of a script. Results that are expected are worked out here by fractions."""

from __future__ import annotations

import unittest
import unittest.mock
from fractions import Fraction

from report_page import blocks
from reports import STALL, TABLE, Reports, profit
from whatif.drawing.values import shown
from whatif_tools.finding import Finding, Kind
from whatif_tools.program import run
from whatif_tools.report.blocks import Blocks
from whatif_tools.report.probes import Source
from whatif_tools.report.questions import course_of
from whatif_tools.report.survey import Survey, free_name
from whatif_tools.script import commands, lines_of


class Questions(Reports):
    def test_order_headings_and_places(self) -> None:
        """A block for each question, in the script's order, under the comment above it."""
        script = STALL + "show A1:B4\n# more, or dearer?\n" + TABLE + "table B4 B1 D2:D4 B2 E1:F1\n"
        script += "# rain\n# and wind\nscenario rain B1 95\ncompare - rain B1:B4\nformula B4\nas bo\nchanges\nset B1 =B2\nexport A1:A2\n"
        found = self.blocks(script)
        self.assertEqual(
            [(block.head, block.about) for block in found],
            [
                ("Cells A1:B4", "line 8 show A1:B4"),
                ("more, or dearer?", "line 15 table B4 B1 D2:D4 B2 E1:F1"),
                ("rain and wind", "line 19 compare - rain B1:B4"),
                ("A formula", "line 20 formula B4"),
                ("What bo hasn't seen", "line 22 changes session bo"),
                ("Refused", "line 23 set B1 =B2 session bo"),
                ("Cells A1:A2", "line 24 export A1:A2 session bo"),
                ("Scenarios side by side", "as of line 19, the cells of which a table or a comparison tells"),
            ],
        )
        self.assertEqual(self.status, 1)
        self.assertIn("A market stall", blocks(self.page(script))[0].text + self.page(script)[:300])

    def test_a_cell_is_named(self) -> None:
        self.assertEqual([block.head for block in self.blocks(STALL + "show B4\nshow E9\nexport A1:B1\n")], ["profit", "Cell E9", "Cells A1:B1"])

    def test_comments_among_data_are_data(self) -> None:
        found = self.blocks("csv A1 2\n# no comment\n2\nshow A1\n")
        self.assertEqual([block.head for block in found], ["Cell A1"])

    def test_table(self) -> None:
        """The entries are the program's, exactly, and labels name the inputs."""
        block = self.blocks(STALL + TABLE + "table B4 B1 D2:D4 B2 E1:F1\n")[0]
        table = block.tables()[0]
        self.assertEqual(block.captions()[0], "profit B4 by customers B1 and price of a jar B2")
        for line, customers in zip(table[2:], (80, 180, 300)):
            wanted = [shown(profit(Fraction(customers), price, Fraction(120))) for price in (Fraction(42, 10), Fraction(48, 10))]
            self.assertEqual(line[1:], wanted)
        here = [cell.get("title") for cell in block.node.iter("td") if "here" in cell.get("class", "")]
        self.assertEqual(here, [shown(profit(Fraction(180), Fraction(48, 10), Fraction(120)))])

    def test_labels_are_those_of_the_moment(self) -> None:
        """Cells get other names later, and other values in a scenario."""
        script = STALL + TABLE + "table B4 B1 D2:D4\nset A1 'guests\nset A4 'loss\nset B1 80\ntable B4 B1 D2:D4\n"
        script += "scenario fair B1 300\nuse fair\ntable B4 B1 D2:D4\n"
        found = self.blocks(script)[:3]
        self.assertEqual([block.captions()[0] for block in found], ["profit B4 by customers B1", *["loss B4 by guests B1"] * 2])
        now = [[cell.get("title") for cell in block.node.iter("th") if "now" in cell.get("class", "")] for block in found]
        self.assertEqual(now, [["180"], ["80"], ["300"]])
        self.assertIn("scenario fair", found[2].about)

    def test_heads_of_lists(self) -> None:
        """A cell of a list has its head, until the list has a gap; what is beside another block is none of its names."""
        script = "csv A1 4\nkind,jars,cost\nplum,40,1.9\nquince,25,2.4\nbramble,30,2.1\nset D4 =[.B4]*[.C4]\nset G1 7\nset G2 8\n"
        script += "table D4 B4 G1:G2\nclear B3\ntable D4 B4 G1:G2\ntable D4 G1 G1:G2\n"
        captions = [block.captions()[0] for block in self.blocks(script)]
        self.assertEqual(captions, ["bramble D4 by bramble \u00b7 jars B4", "bramble D4 by bramble B4", "bramble D4 by G1"])

    def test_sessions_are_left_as_they_are(self) -> None:
        """Two tables of a session in a scenario, behind one another: the page's own questions don't take it to another one."""
        script = STALL + TABLE + "scenario dear B2 6\nas bo\nuse dear\ntable B4 B1 D2:D4\ntable B4 B1 D2:D4\nshow B4\n"
        found = self.blocks(script)
        wanted = [shown(profit(Fraction(n), Fraction(6), Fraction(120))) for n in (80, 180, 300)]
        for block in found[:2]:
            self.assertEqual(block.captions()[0], "profit B4 by customers B1")
            self.assertEqual([row[1] for row in block.tables()[0][1:]], wanted)
        self.assertEqual([block.heads() for block in found[:2]], [["What moves profit B4 most"], []])
        self.assertEqual(found[2].tables()[0][1], ["4", wanted[1]])

    def test_compare(self) -> None:
        block = self.blocks(STALL + "scenario rain B1 95\ncompare - rain B1:B4\n")[0]
        before, after = (profit(Fraction(n), Fraction(48, 10), Fraction(120)) for n in (180, 95))
        profits = ["profit B4", shown(before), shown(after), shown(after - before)]
        self.assertEqual(block.tables()[0][1:], [["customers B1", "180", "95", "-85"], profits])

    def test_changes(self) -> None:
        """With what the session had seen before, which another session's look doesn't count for."""
        found = self.blocks("set A1 5\nas ana\nchanges\nset A1 6\nas bo\nchanges\nset A1 7\nset B1 1\nchanges\nas ana\nchanges\nchanges\n")
        first, second, later = [["A1", "", "5"]], [["A1", "", "6"]], ["B1", "", "1"]
        wanted = [first, second, [["A1", "6", "7"], later], [["A1", "5", "7"], later]]
        self.assertEqual([block.tables()[0][1:] for block in found[:4]], wanted)
        self.assertIn("Nothing has changed", found[4].text)

    def test_sheet(self) -> None:
        """Formulas are told, and the text 5 isn't the number."""
        script = "set A1 '5\nset B1 1\nset B2 =[.B1]/3\nshow A1:B2\nset B2 4\nshow A1:B2\n"
        cells = [[(cell.text, cell.get("title")) for cell in block.node.iter("td")][1:] for block in self.blocks(script)]
        self.assertEqual(cells[0], [("5", None), ("1", "1"), (None, None), ("0.3333", "=[.B1]/3 \u2192 1/3")])
        self.assertEqual(cells[1][3], ("4", "4"))

    def test_scenarios_side_by_side(self) -> None:
        """All that there are at the last comparison, though they are dropped later."""
        script = STALL + TABLE + "table B4 B1 D2:D4\nscenario rain B1 95\nscenario fair B1 300\nscenario dear B2 6\nbase dear fair\n"
        script += "compare - rain B1\ndrop dear\ndrop fair\ndrop rain\nset B1 1\n"
        block = self.blocks(script)[-1]
        price, dear = Fraction(48, 10), Fraction(6)
        wanted = [shown(profit(Fraction(n), p, Fraction(120))) for n, p in ((180, price), (95, price), (300, price), (300, dear))]
        rows = block.tables()[0]
        self.assertEqual(rows[0], ["scenario", "profit B4", "customers B1"])
        names, customers = ["as it is", "rain", "fair", "dear on fair"], ["180", "95", "300", "300"]
        self.assertEqual(rows[1:], [list(row) for row in zip(names, wanted, customers)])

    def test_meant_refusals_are_no_faults(self) -> None:
        """A refusal of which nothing is found is told, and not as a fault."""
        script = b"# it isn't there\nuse no\n"
        source = Source(script, list(commands(lines_of(script))), run(script).replies)
        survey = Survey(source, course_of(script, source.commands, source.replies), Fraction(1, 10), None)
        cases: list[tuple[list[Finding], str]] = [([], ""), ([Finding(2, 1, Kind.REFUSED, "no such scenario")], "findings")]
        for findings, kind in cases:
            part = Blocks(survey, findings, Fraction(1, 10), None).parts()[0]
            self.assertEqual((part.kind, "as it is meant" in part.body), (kind, not kind))


class Tornados(Reports):
    def test_exactly(self) -> None:
        """Each input alone a tenth lower and higher, in the order of what it moves; the state is that of the question."""
        script = STALL + TABLE + "scenario fair B1 300\nuse fair\ntable B4 B1 D2:D4\nuse\nset B1 1\n"
        block = self.blocks(script)[0]
        self.assertEqual(block.heads(), ["What moves profit B4 most"])
        inputs = {"customers B1 300": Fraction(300), "price of a jar B2 4.8": Fraction(48, 10), "costs B3 120": Fraction(120)}
        rows = {}
        for n, (name, value) in enumerate(inputs.items()):
            ends = []
            for factor in (Fraction(9, 10), Fraction(11, 10)):
                values = list(inputs.values())
                values[n] = value * factor
                ends.append(profit(*values))
            rows[name] = ends
        order = sorted(rows, key=lambda name: -abs(rows[name][1] - rows[name][0]))
        self.assertEqual(block.tables()[1][1:], [[name, *map(shown, rows[name])] for name in order])

    def test_a_replaced_formula_is_an_input(self) -> None:
        """What it reads doesn't move the result in that scenario, and isn't tried."""
        script = STALL + "set B5 =[.B3]*2\nset A5 'twice\nset B6 =[.B5]+[.B1]\nset A6 'sum\n" + TABLE
        block = self.blocks(script + "scenario s B5 50\nuse s\ntable B6 B1 D2:D4\n")[0]
        self.assertEqual(block.tables()[1][1:], [["customers B1 180", "212", "248"], ["twice B5 50", "225", "235"]])
        self.assertNotIn("reach", block.text)

    def test_by_and_goal(self) -> None:
        """Another part, and a cell of which no table asks; the state is that of the end."""
        found = self.blocks(STALL + "set C1 =[.B1]*2\nset B1 70\n", "--by", "50", "--tornado", "c1")
        self.assertEqual([block.head for block in found], ["At the end of the script"])
        self.assertEqual(found[0].tables()[0][1:], [["customers B1 70", "70", "210"]])
        self.assertEqual(self.blocks(STALL + TABLE + "table B4 B1 D2:D4\n", "--tornado", "Z1")[0].heads(), [])

    def test_what_is_no_quantity_is_left_out(self) -> None:
        script = "csv A1 8\nyear of the start,2026\nfixed costs of a year,2000\nrate,0\nis on,TRUE\nname,x\nplan code,7\n"
        script += "days,30\nplanned pieces,2026\n"
        script += "set B9 =[.B1]+[.B2]+[.B3]+[.B6]+[.B7]+[.B8]+IF([.B4];1;2)+IF([.B5]=\"x\";1;2)\nset C1 1\nset C2 2\ntable B9 B7 C1:C2\n"
        block = self.blocks(script)[0]
        names = [row[0] for row in block.tables()[1][1:]]
        self.assertEqual(sorted(names), ["days B7 30", "fixed costs of a year B2 2 000", "planned pieces B8 2 026"])
        self.assertIn("3 constants are left out. What is no quantity isn't tried", block.text)

    def test_a_counter_is_left_out(self) -> None:
        """A 1 from which formulas go on below isn't tried; any other first value is, and so is a 1 without them."""
        script = "set A1 1\nset A2 =[.A1]+1\nset B1 500\nset B2 =[.B1]*2\nset C1 1\nset D2 =[.A2]+[.B2]+[.C1]\nset E1 1\nset E2 2\n"
        block = self.blocks(script + "table D2 B1 E1:E2\n")[0]
        self.assertEqual([row[0] for row in block.tables()[1][1:]], ["B1 500", "C1 1"])

    def test_inputs_behind_ranges_and_formulas(self) -> None:
        """A column of 300 by way of a sum: all are tried, twelve are drawn, and a hundred of the rest are a list."""
        numbers = "".join(f"{n}\n" for n in range(1, 301))
        block = self.blocks(f"csv A1 300\n{numbers}set C1 =SUM([.A1:.A300])\nset C2 =[.C1]*2\nset D1 5\nset D2 6\ntable C2 A1 D1:D2\n")[0]
        drawn, rest = block.tables()[1:]
        base = 2 * sum(range(1, 301))
        self.assertEqual(drawn[1], ["A300 300", str(base - 60), str(base + 60)])
        self.assertEqual((len(drawn), len(rest)), (13, 101))
        self.assertEqual(rest[1], ["A288", "288", shown(base - Fraction(288, 5)), shown(base + Fraction(288, 5))])
        self.assertIn("288 inputs move it less", block.text)
        self.assertIn("188 more aren't listed", block.text)

    def test_an_error_is_told(self) -> None:
        script = "set A1 'months\nset B1 10\nset B2 =INDEX([.C1:.C10];[.B1])+[.B3]\nset B3 4\ncsv C1 10\n" + "1\n" * 10
        script += "csv D1 2\n1\n2\ntable B2 B1 D1:D2\n"
        block = self.blocks(script)[0]
        self.assertTrue(any(error.startswith("Not drawn: months (B1), since 11 gives #") for error in block.errors()), block.errors())

    def test_alike(self) -> None:
        block = self.blocks(STALL + TABLE + "table B4 B8 D2:D4\n")[0]
        self.assertEqual(len(block.errors()), 1)
        self.assertIn("B4 doesn't rest on B8", block.errors()[0])


class Asking(unittest.TestCase):
    def test_answers_are_parted(self) -> None:
        script = b"set A1 5\nshow A1\ncsv B1 2\n1\nshow A1\nshow B1:B2"
        source = Source(script, list(commands(lines_of(script))), run(script).replies)
        found = source.ask({0: ["show A1"], 2: ["formula A1", "show Z1"], 3: ["nonsense"]})
        ends = {at: [(reply.records(), reply.end) for reply in replies] for at, replies in found.items()}
        self.assertEqual(ends, {0: [([["5"]], "ok")], 2: [([["A1", "5"]], "ok"), ([[""]], "ok")], 3: [([], "refused E02")]})

    def test_nothing_is_believed_that_changes_the_script(self) -> None:
        """Lines that change what the script is answered give no answer."""
        script = b"set A1 5\nshow A1\n"
        source = Source(script, list(commands(lines_of(script))), run(script).replies)
        self.assertEqual(source.ask({0: ["set A1 6"]}), {})
        self.assertEqual(len(source.ask({0: ["show A1"]})), 1)

    def test_long_scripts(self) -> None:
        """Nothing is asked where the lines would be more than the program reads."""
        script = b"set A1 5\n" * 20
        source = Source(script, list(commands(lines_of(script))), run(script).replies)
        with unittest.mock.patch("whatif_tools.report.probes.MOST_LINES", 21):
            self.assertEqual([len(source.ask({3: lines})) for lines in (["show A1"], ["show A1"] * 2)], [1, 0])

    def test_names_are_free(self) -> None:
        """A session and a scenario of a script that are named as the page's own are left alone."""
        self.assertEqual(free_name(b"as whatif_report\nscenario whatif_report_1 A1 5\n"), "whatif_report_2")

    def test_missing_data(self) -> None:
        """Nothing is asked where it would be taken for data."""
        script = b"set A1 5\ncsv B1 3\n1\n"
        source = Source(script, list(commands(lines_of(script))), run(script).replies)
        self.assertEqual(source.ask({1: ["show A1"]}), {})


if __name__ == "__main__":
    unittest.main()
