"""README.md quotes lines that the scripts have, and names files that are there."""

import re
import unittest

from examples.tests.replies import EXAMPLES

README = (EXAMPLES / "README.md").read_text()


class ReadmeTest(unittest.TestCase):
    def test_quoted_lines(self) -> None:
        parts = re.findall(r"\[(\w+)\.whatif\]\(\w+\.whatif\)[^\n]*:\n\n((?:    .*\n)+)", README)
        self.assertEqual([name for name, _ in parts], ["tariff", "recipe", "break_even"])
        for name, quoted in parts:
            lines = (EXAMPLES / f"{name}.whatif").read_text().splitlines()
            parted = re.findall(r"    (.*)\n", quoted)
            for at, line in enumerate(parted):
                self.assertIn(line, lines)
                if line.startswith("csv "):
                    data, start = int(line.split()[2]) + 1, lines.index(line)
                    self.assertEqual(parted[at : at + data], lines[start : start + data])

    def test_links(self) -> None:
        for target in re.findall(r"\]\(([^)]+)\)", README):
            self.assertTrue((EXAMPLES / target).exists(), target)

    def test_all_examples_are_listed(self) -> None:
        for path in EXAMPLES.glob("*.whatif"):
            self.assertIn(f"]({path.name})", README)


if __name__ == "__main__":
    unittest.main()
