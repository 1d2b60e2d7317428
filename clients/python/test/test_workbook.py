"""What-ifs, scenarios and sessions, on the program. Numbers are worked out by hand or by Python's fractions."""

import unittest
from collections.abc import Callable
from fractions import Fraction

from books import WorkbookTest, difference
from whatif import Change, Difference, Formula, Session


class WhatIfTest(WorkbookTest):
    def test_what_if(self) -> None:
        self.tariff()
        self.assertEqual(self.book.what_if("B4", {"B1": 400, "B2": 0.28}), 400 * Fraction(28, 100) + 12)
        self.assertEqual(self.book.value("B4"), 92)

    def test_what_if_of_several(self) -> None:
        self.tariff()
        self.book["B5"] = Formula("=[.B4]/[.B1]")
        self.assertEqual(self.book.what_if(["B4", "B5"], {"B1": 400}), [140, Fraction(140, 400)])
        self.assertEqual(self.book.what_if([], {"B1": 400}), [])
        self.assertIsNone(self.book.scenario_in_use)

    def test_sensitivity(self) -> None:
        """A tenth more or less of 250, of 0.32 and of 12, worked out by hand."""
        self.tariff()
        found = self.book.sensitivity("B4", by=10)
        wanted = [("B1", 84, 100, 16), ("B2", 84, 100, 16), ("B3", Fraction("90.8"), Fraction("93.2"), Fraction("2.4"))]
        self.assertEqual([(it.address, it.low, it.high, it.spread) for it in found], wanted)
        self.assertEqual((found.result, found.by, found.labels["B2"]), ("B4", 10, "price"))
        self.assertEqual([it.address for it in self.book.sensitivity("B4", by=1, inputs=["B3"])], ["B3"])
        with self.assertRaisesRegex(ValueError, "A1 shows consumption: no number"):
            self.book.sensitivity("B4", inputs=["A1"])

    def test_inputs_are_found_through_formulas_and_rectangles(self) -> None:
        self.book["A1"] = [[1], [2], ["x"], [Formula("=SUM([.A1:.A3])")], [5]]
        self.book["B1"] = Formula("=[.$A$4]*[.A5]&\"[.A9]\"")
        self.assertEqual({it.address for it in self.book.sensitivity("B1")}, {"A5", "A1", "A2"})

    def test_labels(self) -> None:
        self.tariff()
        self.book["C5"] = "above"
        self.book["B6"] = [1, 2]
        wanted = {"B1": "consumption", "C6": "above"}
        self.assertEqual(self.book.labels(["B1", "B4", "C6"]), wanted)
        self.assertEqual(self.book.labels(["B1", "ZZ9999"]), {})

    def test_table_over_cells(self) -> None:
        self.tariff()
        self.book.put("D1", [[None, 0.32, 0.28], [250], [400]])
        wanted = [[None, Fraction(8, 25), Fraction(7, 25)], [250, 92, 82], [400, 140, 124]]
        self.assertEqual(self.book.table("B4", "B1", "D2:D3", "B2", "E1:F1"), wanted)
        self.assertEqual(self.book.table("B4", "B1", "D2:D3"), [[250, 92], [400, 140]])

    def test_table_over_lists(self) -> None:
        self.tariff()
        wanted = [[None, Fraction(8, 25), Fraction(7, 25)], [250, 92, 82], [400, 140, 124]]
        self.assertEqual(self.book.table("B4", "B1", [250, 400], "B2", [0.32, 0.28]), wanted)
        self.assertEqual(self.book.table("B4", "B1", [250, 400]), [[250, 92], [400, 140]])
        self.assertEqual(self.book.table("B4", "B1", []), [])
        self.assertEqual(self.book.table("B4", "B1", iter([250, 400]), "B2", iter([0.32, 0.28])), wanted)

    def test_tables_of_two_kinds_of_values(self) -> None:
        for wrong in (("D2:D3", "B2", [1]), ([1], "B2", "E1:F1")):
            with self.assertRaises(TypeError):
                self.book.table("B4", "B1", *wrong)
        with self.assertRaises(ValueError):
            self.book.table("B4", "B1", [1], "B2")

    def test_under_a_scenario(self) -> None:
        self.tariff()
        winter = self.book.scenario("winter", {"B1": 400})
        with self.book.using(winter):
            self.assertEqual(self.book.what_if("B4", {"B3": 20}), 400 * Fraction(32, 100) + 20)
            self.assertEqual(self.book.scenario_in_use, "winter")
            self.assertEqual(self.book.value("B4"), 140)
        self.assertEqual(self.book.value("B4"), 92)
        winter.drop()

    def test_a_question_that_fails_leaves_nothing(self) -> None:
        self.tariff()
        with self.refused("E04"):
            self.book.what_if("B4", {"B1": 400, "ZZZ1": 1})
        with self.refused("E04"):
            self.book.what_if("ZZZ1", {"B1": 400})
        for bad in (float("nan"), None, "007", "two\nlines"):
            with self.assertRaises(ValueError):
                self.book.what_if("B4", {"B1": bad})
        self.assertIsNone(self.book.scenario_in_use)
        self.assertEqual(self.book.what_if("B4", {"B1": 400}), 140)

    def test_seek(self) -> None:
        self.tariff()
        self.assertEqual(self.book.seek("B4", "B1", 100, 0, 1000), 275)
        self.assertEqual(self.book.seek("B4", "B1", 100, 0, 1000, places=0), 275)
        self.assertEqual(self.book.seek("B4", "B1", 12, 0, 1000), 0)
        self.assertEqual(self.book.seek("B4", "B1", Fraction(1, 3) + 12, 0, 1000), Fraction("1.05"))

    def test_seek_downwards(self) -> None:
        self.book.set("B1", 1)
        self.book.set_formula("B2", "=10-[.B1]*[.B1]")
        self.assertEqual(self.book.seek("B2", "B1", 8, 0, 10), Fraction("1.42"))

    def test_seek_what_is_not_there(self) -> None:
        self.tariff()
        with self.assertRaisesRegex(ValueError, "between"):
            self.book.seek("B4", "B1", 1000, 0, 1000)
        with self.assertRaisesRegex(ValueError, "no number"):
            self.book.seek("A1", "B1", 1000, 0, 1000)
        self.assertIsNone(self.book.scenario_in_use)


class ScenariosTest(WorkbookTest):
    def test_compare(self) -> None:
        self.tariff()
        winter = self.book.scenario("winter", {"B1": 400})
        saver = self.book.scenario("saver", {"B2": 0.28, "B3": 15}, base=winter)
        self.assertEqual(
            self.book.compare(None, winter, "B1:B4"), [difference("B1", 250, 400, 150), difference("B4", 92, 140, 48)]
        )
        self.assertEqual(
            self.book.compare("winter", saver, "B2:B4"),
            [
                Difference("B2", Fraction(8, 25), Fraction(7, 25), Fraction(-1, 25)),
                difference("B3", 12, 15, 3),
                difference("B4", 140, 127, -13),
            ],
        )

    def test_texts_have_no_difference(self) -> None:
        self.book.set("A1", "old")
        self.book.scenario("named", {"A1": "new"})
        self.assertEqual(self.book.compare(None, "named", "A1"), [Difference("A1", "old", "new", None)])

    def test_change_and_drop(self) -> None:
        self.tariff()
        winter = self.book.scenario("winter", {"B1": 400})
        winter.replace({"B1": 500, "B3": 0})
        winter.restore("B3")
        self.assertEqual(self.book.compare(None, winter, "B4")[0].after, 500 * Fraction(32, 100) + 12)
        other = self.book.scenario("other", {"B2": 1}, base="winter")
        with self.refused("E12"):
            winter.drop()
        other.base_on(None)
        winter.drop()
        with self.refused("E10"):
            self.book.use("winter")

    def test_side_by_side(self) -> None:
        self.tariff()
        winter = self.book.scenario("winter", {"B1": 400})
        self.book.scenario("saver", {"B2": 0.28}, base=winter)
        found = self.book.scenarios("B1:B4")
        wanted = [[250, 400, 400], [Fraction(8, 25), Fraction(8, 25), Fraction(7, 25)], [12, 12, 12], [92, 140, 124]]
        self.assertEqual((found, found.names, found.cells), (wanted, ["sheet", "winter", "saver"], ["B1", "B2", "B3", "B4"]))
        self.assertEqual(self.book.scenarios("B4", [winter]), [[140]])
        self.book.command("drop saver")
        self.assertEqual(self.book.scenarios("B4"), [[92, 140]])
        self.assertIsNone(self.book.scenario_in_use)

    def test_scenarios_that_arent_there(self) -> None:
        self.tariff()
        for _ in range(70):
            with self.refused("E10"):
                self.book.scenarios("B4", ["wintr"])
        self.assertEqual(self.book["B4"], 92)

    def test_one_without_a_replacement(self) -> None:
        with self.assertRaises(ValueError):
            self.book.scenario("empty", {})


class SessionsTest(WorkbookTest):
    def two(self) -> tuple[Session, Session]:
        return self.book.session("ana"), self.book.session("bo")

    def test_a_lost_update_is_refused(self) -> None:
        ana, bo = self.two()
        bo.set("B1", 950)
        with self.refused("E18", "B1"):
            ana.put("A1", [["rent", 940]])
        self.assertEqual(ana.changes(), [Change("B1", "N", Fraction(950))])
        ana.set("B1", 940)
        bo.set("B1", 930, force=True)
        bo.clear("B1", force=True)
        self.assertEqual(bo.changes(), [])

    def test_forced_edits(self) -> None:
        ana, bo = self.two()
        ana.put("A1", [[1, 2], [3, 4]])
        edits: list[Callable[[bool], object]] = [
            lambda force: bo.put("A1", [["007"]], force=force),
            lambda force: bo.set("A2", "two\nlines", force=force),
            lambda force: bo.set_formula("B1", "=1", force=force),
            lambda force: bo.fill("B1", "B2", force=force),
        ]
        for edit in edits:
            with self.refused("E18"):
                edit(False)
            edit(True)
        self.assertEqual(bo.values("A1:B2"), [["007", 1], ["two\nlines", 1]])

    def test_each_has_a_scenario(self) -> None:
        self.tariff()
        ana, bo = self.two()
        winter = self.book.scenario("winter", {"B1": 400})
        ana.use(winter)
        self.assertEqual((ana.value("B4"), bo.value("B4"), self.book.value("B4")), (140, 92, 92))
        self.assertEqual((ana.show("B4"), bo.show("B4")), ([["140"]], [["92"]]))

    def test_reading_values_is_no_look_of_a_session(self) -> None:
        ana, bo = self.two()
        bo.set("B1", 1)
        self.assertEqual(ana.value("B1"), 1)
        with self.refused("E18"):
            ana.set("B1", 2)

    def test_a_script_may_change_session_and_scenario(self) -> None:
        self.tariff()
        self.book.run("scenario winter B1 400\nas ana\nuse winter\n")
        ana = self.book.session("ana")
        self.assertEqual((ana.scenario_in_use, self.book.scenario_in_use), ("winter", None))
        self.assertEqual((self.book.value("B4"), ana.value("B4")), (92, 140))


if __name__ == "__main__":
    unittest.main()
