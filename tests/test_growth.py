"""Tests of bench/growth, which counts how instructions grow, with a stub of valgrind; and that what it runs are scripts of commands."""

import os
import unittest
from contextlib import ExitStack
from typing import Any
from unittest import mock

from bench.growing import CASES, Case
from tests import ROOT
from tests.reference.whatif import replies_to
from tests.support.loading import loaded, result_of
from tests.support.scratch import ScratchTest, made_script
from whatif_tools.script import commands, looks_like_command

TOOL = loaded(ROOT / "bench/growth")
# Writes a total that it makes of the count of the script's bytes, where the program would be run.
STUB = """for word; do case $word in --callgrind-out-file=*) file=${word#*=} ;; esac; done
bytes=$(wc -c)
echo "totals: $((TOTAL))" > "$file"
"""
LINEAR, SQUARE = "70000 + 1000 * bytes", "bytes * bytes"
# The size of scripts that the reference runs.
SMALL = 10
LONGEST_CONTENT = 4_096


def loads(n: int) -> list[str]:
    """It loads n lines."""
    return ["set A1 1"] * n


def looks(n: int) -> list[str]:
    """It looks
    n times."""
    return ["show A1"] * n


def grown(once: int, twice: int, four_times: int, own: str = "", end: str = "") -> Any:
    return TOOL.Growth(Case(loads, 10, own, end), once, twice, four_times)


class Counts(unittest.TestCase):
    def test_the_total_is_that_of_the_run(self) -> None:
        self.assertEqual(TOOL.total("events: Ir\nsummary: 126759\n\nfn=(1) main\n1 126759\n\ntotals: 126759\n"), 126_759)

    def test_what_has_no_total_is_told(self) -> None:
        for written in ("", "summary: 5\n", "fn=(1) totals: 5\n", "totals: \n"):
            with self.subTest(written=written), self.assertRaises(ValueError):
                TOOL.total(written)


class Ratios(unittest.TestCase):
    def test_the_ratio_is_of_what_the_doublings_add(self) -> None:
        for counts, ratio in (((10, 20, 40), 2), ((5, 20, 80), 4), ((1_010, 1_020, 1_040), 2), ((10, 10, 10), 0), ((10, 20, 20), 0)):
            self.assertEqual(grown(*counts).ratio, ratio)

    def test_what_grows_late_grows_without_end(self) -> None:
        self.assertEqual(grown(10, 10, 20).ratio, float("inf"))

    def test_three_is_too_much(self) -> None:
        for four_times, is_too_much in ((49, False), (50, True), (60, True)):
            self.assertEqual(grown(10, 20, four_times).is_too_much, is_too_much)

    def test_it_may_be_the_work_s_own(self) -> None:
        self.assertFalse(grown(10, 20, 60, "n by n").is_too_much)

    def test_it_may_have_an_end(self) -> None:
        self.assertFalse(grown(10, 20, 60, end="ten at most").is_too_much)

    def test_a_row_tells_millions(self) -> None:
        row = TOOL.Growth(Case(loads, 10), 1_000_000, 2_500_000, 7_004_000).row()
        self.assertEqual(row.split(), ["loads", "10", "1.00", "2.50", "7.00", "3.00", "too", "much"])
        row = TOOL.Growth(Case(loads, 10, "n by n"), 1_000_000, 2_500_000, 7_004_000).row()
        self.assertEqual(row.split(maxsplit=6)[-1], "its own: n by n")
        row = TOOL.Growth(Case(loads, 10, end="ten at most"), 1_000_000, 2_500_000, 7_004_000).row()
        self.assertEqual(row.split(maxsplit=6)[-1], "its end: ten at most")


class Runs(ScratchTest):
    """Runs with a stub of valgrind, of two cases."""

    def setUp(self) -> None:
        super().setUp()
        patches = ExitStack()
        self.addCleanup(patches.close)
        patches.enter_context(mock.patch.object(TOOL, "CASES", {"loads": Case(loads, 10), "looks": Case(looks, 20, "n by n")}))
        patches.enter_context(mock.patch.dict(os.environ, PATH=f"{self.folder}:{os.environ['PATH']}"))

    def told(self, total: str, *words: str, then: str = "") -> tuple[int, list[str]]:
        made_script(self.folder / "valgrind", STUB.replace("TOTAL", total) + then)
        status, said = result_of(TOOL, "--program", "whatif", *words)
        return status, said.splitlines()

    def test_what_grows_as_n_does_is_well(self) -> None:
        status, lines = self.told(LINEAR)
        self.assertEqual(status, 0)
        self.assertEqual(lines[0], TOOL.HEAD)
        self.assertEqual([it.split()[:6] for it in lines[1:]], [
            ["loads", "10", "0.09", "0.18", "0.36", "2.00"],
            ["looks", "20", "0.16", "0.32", "0.64", "2.00"],
        ])

    def test_what_grows_as_the_square_is_told(self) -> None:
        status, lines = self.told(SQUARE)
        self.assertEqual(status, 1)
        self.assertEqual([it.split()[5] for it in lines[1:3]], ["4.00", "4.00"])
        self.assertEqual(lines[3:], ["a ratio of 3 or more, which isn't the work's own: loads"])

    def test_the_greatest_ratio_comes_first(self) -> None:
        _, lines = self.told("bytes < 400 ? bytes : bytes * bytes")
        self.assertEqual([it.split()[0] for it in lines[1:3]], ["looks", "loads"])

    def test_one_case_alone(self) -> None:
        status, lines = self.told(SQUARE, "looks")
        self.assertEqual((status, [it.split()[0] for it in lines[1:]]), (0, ["looks"]))

    def test_a_case_that_is_none(self) -> None:
        with self.assertRaises(SystemExit), mock.patch("sys.stderr") as told:
            self.told(LINEAR, "looks", "hears")
        self.assertIn("no case hears", str(told.mock_calls))

    def test_the_list_says_what_each_does(self) -> None:
        status, lines = self.told(LINEAR, "--list")
        self.assertEqual(status, 0)
        self.assertEqual([it.split(maxsplit=1) for it in lines], [
            ["loads", "It loads n lines."],
            ["looks", "It looks n times. Its own: n by n."],
        ])

    def test_a_refused_command_is_told(self) -> None:
        with self.assertRaises(SystemExit) as ended:
            self.told(LINEAR, then="printf 'ok\\nrefused E05\\nrefused E06\\n'")
        self.assertEqual(str(ended.exception), "nothing: commands were refused, 2 of them, the first by refused E05")

    def test_a_program_that_fails_is_told(self) -> None:
        with self.assertRaises(SystemExit) as ended:
            self.told(LINEAR, then="exit 3")
        self.assertEqual(str(ended.exception), "nothing: the program ended with status 3")

    def test_without_valgrind_it_is_skipped(self) -> None:
        with mock.patch.dict(os.environ, PATH=str(self.folder)):
            self.assertEqual(result_of(TOOL, "--program", "whatif"), (0, "skipped: no valgrind\n"))


class Scripts(unittest.TestCase):
    def test_each_is_longer_at_twice_the_size(self) -> None:
        for name, case in CASES.items():
            with self.subTest(name):
                self.assertLess(len("\n".join(case.make(case.size))), len("\n".join(case.make(2 * case.size))))

    def test_the_longest_are_commands_too(self) -> None:
        for name, case in CASES.items():
            with self.subTest(name):
                given = list(commands([line.encode() for line in case.make(4 * case.size)]))
                self.assertEqual([it.text for it in given if it.is_cut or not looks_like_command(it.text)], [])
                self.assertLessEqual(max(len(it.content or "") for it in given), LONGEST_CONTENT)

    def test_no_command_is_refused(self) -> None:
        for name, case in CASES.items():
            with self.subTest(name):
                script = "".join(f"{line}\n" for line in case.make(SMALL))
                self.assertEqual([reply for reply in replies_to(script.encode()) if not reply.endswith(b"ok\n")], [])

    def test_each_says_what_it_does(self) -> None:
        for name, case in CASES.items():
            self.assertTrue(case.what.endswith("."), name)
            self.assertFalse(case.own.endswith("."), name)
            self.assertFalse(case.end.endswith("."), name)


if __name__ == "__main__":
    unittest.main()
