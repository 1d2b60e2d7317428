"""The program writes the stored replies of each example, byte for byte, and those of the stored run."""

import subprocess
import unittest

from tests import ROOT
from tests.support.program import PROGRAM, written
from examples.tests.replies import EXAMPLES

CRATE = ROOT / "crates" / "whatif"


class ProgramTest(unittest.TestCase):
    def test_examples(self) -> None:
        names = sorted(path.stem for path in EXAMPLES.glob("*.whatif"))
        self.assertEqual(names, sorted(path.stem for path in EXAMPLES.glob("*.out")))
        self.assertIn("tariff", names)
        for name in names:
            with self.subTest(name):
                stored = (EXAMPLES / f"{name}.out").read_bytes()
                self.assertEqual(written((EXAMPLES / f"{name}.whatif").read_bytes()), stored)

    def test_each_example_has_a_test_of_its_values(self) -> None:
        for path in EXAMPLES.glob("*.whatif"):
            self.assertTrue((EXAMPLES / "tests" / f"test_{path.stem}.py").is_file(), path.stem)

    def test_stored_run(self) -> None:
        words = (CRATE / "args").read_text().split()
        ran = subprocess.run(
            [PROGRAM, *words], input=(CRATE / "stdin").read_bytes(), capture_output=True, cwd=CRATE / "data", timeout=60
        )
        self.assertEqual((ran.returncode, ran.stderr), (0, b""))
        self.assertEqual(ran.stdout, (CRATE / "stdout").read_bytes())

    def test_stored_run_is_made_from_the_examples(self) -> None:
        ran = subprocess.run([str(EXAMPLES / "stored_run"), "--check"], capture_output=True, text=True, timeout=60)
        self.assertEqual((ran.stdout, ran.returncode), ("", 0))


if __name__ == "__main__":
    unittest.main()
