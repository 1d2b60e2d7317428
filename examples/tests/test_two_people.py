"""The budget of two people, played by two plain dictionaries: what each was shown, and what there is now."""

import unittest
from dataclasses import dataclass, field

from examples.tests.replies import Example

LABELS = {"A1": "item", "B1": "cost of a month", "A2": "rent", "A3": "heating", "A4": "food", "A5": "total"}
WINTER = {"B3": 240}


@dataclass
class Person:
    """The values that somebody was shown, and those that a scenario puts in."""

    shown: dict[str, str] = field(default_factory=dict)
    scenario: dict[str, int] = field(default_factory=dict)


def cells(costs: dict[str, int]) -> dict[str, str]:
    """All that the sheet shows at these costs."""
    return {**LABELS, **{at: str(cost) for at, cost in costs.items()}, "B5": str(sum(costs.values()))}


def by_row(address: str) -> tuple[int, str]:
    return int(address[1:]), address[0]


class Budget:
    """Lists for each person what differs from what that person was shown."""

    def __init__(self) -> None:
        self.costs = {"B2": 900, "B3": 140, "B4": 620}

    def changes(self, person: Person) -> list[list[str]]:
        now = cells({**self.costs, **person.scenario})
        differing = [at for at in sorted(now, key=by_row) if person.shown.get(at) != now[at]]
        person.shown = now
        return [[at, "T" if at in LABELS else "N", now[at]] for at in differing]


class TwoPeopleTest(unittest.TestCase):
    example = Example("two_people")

    def test_story(self) -> None:
        budget, ana, bo = Budget(), Person(), Person()
        lists = iter(reply.records for reply in self.example.replies if reply.command == "changes")
        self.assertEqual(next(lists), budget.changes(ana))
        self.assertEqual(next(lists), budget.changes(bo))
        budget.costs["B2"] = 850
        self.assertEqual(next(lists), budget.changes(ana))
        budget.costs["B2"] = 870
        self.assertEqual(next(lists), budget.changes(bo))
        budget.costs["B3"] = 160
        bo.scenario = WINTER
        self.assertEqual(next(lists), budget.changes(bo))
        self.assertEqual(next(lists), budget.changes(ana))
        compared = [["B3", "160", "240", "80"], ["B5", str(870 + 160 + 620), str(870 + 240 + 620), "80"]]
        self.assertEqual(self.example.records("compare - cold_winter B2:B5"), compared)
        budget.costs["B4"] = 650
        self.assertEqual(next(lists), budget.changes(bo))
        bo.scenario = {}
        self.assertEqual(next(lists), budget.changes(bo))
        self.assertEqual(list(lists), [])
        now = cells(budget.costs)
        self.assertEqual(self.example.records("show A1:B5"), [[now[f"A{row}"], now[f"B{row}"]] for row in range(1, 6)])

    def test_lost_updates_are_refused(self) -> None:
        """Refused are the two edits over a cell that somebody else has edited since, and a scenario that is in use."""
        wanted = [("set B2 880", "E18 B2"), ("clear B2:B4", "E18 B4"), ("drop cold_winter", "E12")]
        self.assertEqual(self.example.refusals(), wanted)
        self.assertEqual(self.example.records("show B2"), [["850"]])


if __name__ == "__main__":
    unittest.main()
