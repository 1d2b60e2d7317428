"""The plan in the picture at the top, worked out by repeated addition, and the picture itself."""

import subprocess
import sys
import unittest

from examples.tests.replies import EXAMPLES, Example


def profit(pieces: int, price: int, costs: float, fixed: int) -> str:
    """The profit of a plan, piece by piece; halves add up exactly in floating point."""
    left = -float(fixed)
    for _ in range(pieces):
        left += price - costs
    return str(int(left))


class HeroTest(unittest.TestCase):
    example = Example("hero")

    def test_table(self) -> None:
        wanted = [["", "7", "8", "9", "10"]]
        for pieces in (2000, 3000, 4000, 6000, 8000):
            wanted.append([str(pieces), *(profit(pieces, price, 5, 12000) for price in (7, 8, 9, 10))])
        self.assertEqual(self.example.records("table B5 B1 D2:D6 B2 E1:H1"), wanted)

    def test_comparison(self) -> None:
        before, after = profit(5000, 8, 5, 12000), profit(5000, 8, 4.5, 9000)
        self.assertEqual(
            self.example.records("compare - leaner B3:B5"),
            [["B3", "5", "4.5", "-0.5"], ["B4", "12000", "9000", "-3000"], ["B5", before, after, str(int(after) - int(before))]],
        )

    def test_picture_is_drawn_from_the_replies(self) -> None:
        words = [sys.executable, "-B", str(EXAMPLES / "draw" / "hero.py"), "-"]
        drawn = subprocess.run(words, capture_output=True, check=True, timeout=60).stdout
        self.assertEqual(drawn, (EXAMPLES / "hero.svg").read_bytes())


if __name__ == "__main__":
    unittest.main()
