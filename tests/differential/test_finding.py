"""Tests that planted mistakes are found, and made small; and that the same seed draws the same scripts."""

import os
import re
import subprocess
import sys
import unittest
from collections.abc import Callable

from tests import ROOT
from tests.differential.chains import chain_script
from tests.differential.compare import Answer, difference, reference
from tests.differential.finding import MOST, Answers, found_after, planted_subject
from tests.differential.generate import script
from tests.differential.planted import PLANTED
from tests.differential.shrink import lines_of, shrunk
from tests.reference.whatif import in_deep_thread
from tests.support.scratch import ScratchTest, made_script

SEED = 7


def deep(work: Callable[[], None]) -> None:
    """Does work where a long chain of references may be followed, and raises what it raises."""
    faults: list[BaseException] = []

    def guarded() -> None:
        try:
            work()
        except BaseException as fault:
            faults.append(fault)

    in_deep_thread(guarded)
    if faults:
        raise faults[0]


class Generating(unittest.TestCase):
    def test_the_same_seed_draws_the_same_scripts(self) -> None:
        drawers: list[tuple[str, str, Callable[[int, int], bytes]]] = [("generate", "script", script), ("chains", "chain_script", chain_script)]
        for module, name, draw in drawers:
            words = f"import sys; from tests.differential.{module} import {name} as draw; sys.stdout.buffer.write(b''.join(draw(3, n) for n in range(50)))"
            drawn = []
            for hashing in ("1", "2"):
                environment = {**os.environ, "PYTHONHASHSEED": hashing}
                drawn.append(subprocess.run([sys.executable, "-c", words], cwd=ROOT, env=environment, capture_output=True, check=True).stdout)
            self.assertEqual(drawn[0], drawn[1])
            self.assertEqual(drawn[0], b"".join(draw(3, number) for number in range(50)))

    def test_a_chain_has_tables_with_edits_between(self) -> None:
        for number in range(50):
            first, *others = [at for at, line in enumerate(lines_of(chain_script(1, number))) if line.startswith(b"table ")]
            self.assertGreater(len(others), 2)
            self.assertGreater(others[-1] - first, len(others))

    def test_other_seeds_and_numbers_draw_other_scripts(self) -> None:
        drawers: list[Callable[[int, int], bytes]] = [script, chain_script]
        for draw in drawers:
            drawn = {draw(seed, number) for seed in range(10) for number in range(10)}
            self.assertEqual(len(drawn), 100)

    def test_a_script_is_about_as_long_as_asked(self) -> None:
        for lines in (20, 60):
            lengths = [len(lines_of(script(1, number, lines))) for number in range(100)]
            self.assertLess(lines / 2, sum(lengths) / 100)
            self.assertLess(sum(lengths) / 100, 2 * lines)


class Finding(unittest.TestCase):
    def test_each_planted_mistake_is_found(self) -> None:
        answers = Answers(SEED, MOST)

        def find() -> None:
            for name in PLANTED:
                with self.subTest(name):
                    self.assertIsNotNone(found_after(name, answers))

        deep(find)

    def test_the_reference_agrees_with_itself(self) -> None:
        def compare() -> None:
            for number in range(20):
                self.assertIsNone(difference(script(SEED, number), {"itself": reference}))

        deep(compare)

    def test_a_fault_is_a_difference(self) -> None:
        found = difference(b"show A1\n", {"ended": lambda made: Answer(reference(made).replies, "status 1")})
        self.assertIsNotNone(found)


class Shrinking(unittest.TestCase):
    def small(self, name: str) -> bytes:
        """The first script that finds a mistake, made smaller."""
        subject = planted_subject(name)
        kept: list[bytes] = []

        def find() -> None:
            made = next(made for made, wanted in Answers(SEED, MOST) if subject(made) != wanted)
            kept.append(shrunk(made, lambda smaller: difference(smaller, {name: subject}) is not None))
            self.assertIsNotNone(difference(kept[0], {name: subject}))
            self.assertLess(len(kept[0]), len(made))

        deep(find)
        return kept[0]

    def test_an_empty_value(self) -> None:
        self.assertLessEqual(len(lines_of(self.small("an Empty value doesn't empty the input"))), 4)

    def test_a_quoted_field(self) -> None:
        self.assertLessEqual(len(lines_of(self.small("what follows a closing quote is dropped"))), 3)

    def test_a_stale_value(self) -> None:
        self.assertLessEqual(len(lines_of(self.small("an edit raises direct readers alone"))), 7)

    def test_what_is_needed_stays(self) -> None:
        made = b"set A1 1\ncsv B1 2\n1,2\n3,4\nset A2 =SUM(1;ROUND(ABS([.A1]);2))\nshow A1\n"
        self.assertEqual(shrunk(made, lambda smaller: b"ROUND" in smaller), b"ROUND")
        self.assertEqual(shrunk(made, lambda smaller: re.search(rb"csv B1 [0-9]\n.*4\n", smaller, re.DOTALL) is not None), b"csv B1 1\n4\n")


class Running(ScratchTest):
    def test_a_wrong_program(self) -> None:
        environment = {**os.environ, "WHATIF": str(made_script(self.folder / "wrong", "cat > /dev/null\necho wrong"))}
        ran = subprocess.run([ROOT / "tests/differential/run", "--seed", "5", "--scripts", "3"], env=environment, capture_output=True, text=True)
        self.assertEqual(ran.returncode, 1)
        self.assertTrue(ran.stdout.startswith("seed 5\n"), ran.stdout)
        self.assertTrue(ran.stdout.endswith("0 passed, 3 failed\n"), ran.stdout)
        self.assertIn("---- script 0 of the seed 5: whatif --keep 1 differs from the reference\n\n---- as bytes: b''\n", ran.stdout)


if __name__ == "__main__":
    unittest.main()
