"""Tests of bench/peers: with Gnumeric, without it, and with a stub of it that gives other answers."""

import os
import re
import shutil
import subprocess
import sys
import tempfile
import unittest
from pathlib import Path

from tests import ROOT
from tests.support.loading import loaded
from tests.support.program import PROGRAM
from tests.support.scratch import made_script

PEERS = ROOT / "bench/peers"
ROW = re.compile(r"\| ([^|]+) \| \d+\.\d{3} \| \d+\.\d{3} \| [\d.]+ \| [\d.]* \|")
STUB = 'for file; do :; done\necho 5 > "$file"'


def called(path: str | None = None) -> tuple[int, list[str]]:
    """The exit status and the lines of a call on models of a thousandth, where programs are looked for on this path."""
    words = [sys.executable, str(PEERS), PROGRAM, "--smaller", "1000", "--times", "1"]
    ended = subprocess.run(words, stdout=subprocess.PIPE, text=True, env={**os.environ, "PATH": path or os.environ["PATH"]})
    return ended.returncode, ended.stdout.splitlines()


class Peers(unittest.TestCase):
    @unittest.skipUnless(shutil.which("ssconvert"), "no ssconvert")
    def test_both_give_the_same_values(self) -> None:
        status, lines = called()
        self.assertEqual(status, 0, lines)
        rows = [ROW.fullmatch(line) for line in lines[2:]]
        self.assertTrue(all(rows), lines)
        self.assertEqual([row[1] for row in rows if row][:2], ["nothing", "chain of 50, its end shown"])
        self.assertEqual(len(rows), 8)

    def test_another_answer_is_told(self) -> None:
        with tempfile.TemporaryDirectory() as folder:
            made_script(Path(folder) / "ssconvert", STUB)
            status, lines = called(f"{folder}:{os.environ['PATH']}")
        self.assertEqual(status, 1)
        self.assertIn("chain of 50, its end shown: record 1 is 50 for the program, and 5 for Gnumeric", lines)

    def test_numbers_are_compared_to_15_digits(self) -> None:
        difference = loaded(PEERS).difference
        for ours, theirs, told in (
            ([["1/3", "a"]], [["0.33333333333333333334", "a"]], False),
            ([["0.3"]], [["0.30000000000000004"]], False),
            ([["100000000000001"]], [["100000000000002"]], True),
            ([["1/3"]], [["0.33333333333"]], True),
            ([["a"]], [["b"]], True),
            ([["1"], ["2"]], [["1"]], True),
        ):
            with self.subTest(ours=ours, theirs=theirs):
                self.assertEqual(bool(difference(ours, theirs)), told)

    def test_without_gnumeric_it_is_skipped(self) -> None:
        with tempfile.TemporaryDirectory() as folder:
            self.assertEqual(called(folder), (0, ["skipped: no ssconvert"]))


if __name__ == "__main__":
    unittest.main()
