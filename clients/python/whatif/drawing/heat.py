"""Heat maps: each number's step of colour, and large tables as areas of them."""

from __future__ import annotations

import math
from collections.abc import Sequence
from dataclasses import dataclass
from fractions import Fraction

from .colours import LEVELS
from .markup import Markup, tag
from .values import floating

NOISE = 1e-9
"""Of floating point: a number on the border of two steps is in the lower one."""


@dataclass(frozen=True)
class Steps:
    """Steps around 0 where signs differ, else from the lowest to the highest."""

    low: float
    high: float

    @classmethod
    def of(cls, ends: tuple[Fraction, Fraction]) -> Steps:
        return cls(float(ends[0]), float(ends[1]))

    def name(self, number: Fraction | None) -> str:
        """The class of a number's colour.

        >>> known = Steps(-5, 10)
        >>> known.name(Fraction(5)), known.name(Fraction(-5)), known.name(Fraction(0)), Steps(2, 20).name(Fraction(4))
        ('a5', 'b5', '', 'a1')
        """
        if number is None or self.low == self.high:
            return ""
        value = floating(number)
        if not self.low < 0 < self.high:
            return f"a{level((value - self.low) / (self.high - self.low))}"
        if value == 0:
            return ""
        return f"{'a' if value > 0 else 'b'}{level(abs(value) / max(-self.low, self.high))}"


def level(part: float) -> int:
    return min(LEVELS, max(1, math.ceil(part * LEVELS - NOISE)))


def areas(numbers: Sequence[Sequence[Fraction | None]], steps: Steps) -> dict[str, str]:
    """For each class the path of its entries, each one unit wide and high; entries side by side are drawn at once."""
    paths: dict[str, list[str]] = {}
    for i, line in enumerate(numbers):
        start = 0
        classes = ["none" if number is None else steps.name(number) for number in line]
        for j in range(1, len(classes) + 1):
            if j == len(classes) or classes[j] != classes[start]:
                paths.setdefault(classes[start], []).append(f"M{start} {i}h{j - start}v1h{start - j}z")
                start = j
    return {name: "".join(path) for name, path in sorted(paths.items()) if name}


def heat_svg(numbers: Sequence[Sequence[Fraction | None]], ends: tuple[Fraction, Fraction], now: tuple[int, int] | None, title: str) -> Markup:
    """A heat map without numbers, from the lowest to the highest; an entry that is none is drawn as the errors are."""
    steps = Steps.of(ends)
    paths = [tag("path", class_=name, d=path) for name, path in areas(numbers, steps).items()]
    if now is not None:
        paths.append(tag("rect", class_="here", x=now[1], y=now[0], width=1, height=1))
    box = f"0 0 {len(numbers[0])} {len(numbers)}"
    return tag("svg", tag("title", title), *paths, viewBox=box, preserveAspectRatio="none", class_="map", role="img", shape_rendering="crispEdges")
