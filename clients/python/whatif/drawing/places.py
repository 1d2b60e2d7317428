"""Room for texts in a drawing: how wide they are at most, and where they don't cover one another."""

from __future__ import annotations

from dataclasses import dataclass, field

SIZE = 12
WIDE = 0.64
"""Of a text's size, the width of a character at most, on the average of a sans-serif font."""


def width(text: str) -> float:
    return WIDE * SIZE * len(text) + 2


def fitting(text: str, room: float) -> str:
    """As much of a text as has room, with a sign where it is cut."""
    count = int((room - 2) / (WIDE * SIZE))
    return text if len(text) <= count else text[: max(1, count - 1)].rstrip() + "\u2026"


@dataclass(frozen=True)
class Box:
    left: float
    top: float
    right: float
    bottom: float

    def covers(self, other: Box) -> bool:
        return self.left < other.right and other.left < self.right and self.top < other.bottom and other.top < self.bottom


@dataclass
class Room:
    """The boxes that are taken, inside of one for all."""

    whole: Box
    taken: list[Box] = field(default_factory=list)

    def take(self, box: Box) -> bool:
        """Takes a box, if it is free."""
        inside = self.whole.left <= box.left and box.right <= self.whole.right and self.whole.top <= box.top and box.bottom <= self.whole.bottom
        if not inside or any(box.covers(other) for other in self.taken):
            return False
        self.taken.append(box)
        return True


def text_box(x: float, baseline: float, text: str, anchor: str = "start") -> Box:
    """The box of a text whose start, middle or end is at x."""
    wide = width(text)
    left = x - {"start": 0.0, "middle": wide / 2, "end": wide}[anchor]
    return Box(left, baseline - SIZE, left + wide, baseline + 3)


def spread(wanted: list[float], apart: float, low: float, high: float) -> list[float]:
    """Places near the wanted ones, at least so far apart and between low and high, in the same order.

    >>> spread([10, 12, 50], 10, 0, 100), spread([99, 98, 97], 10, 0, 100)
    ([10, 20, 50], [100, 90, 80])
    """
    order = sorted(range(len(wanted)), key=lambda at: wanted[at])
    found = [0.0] * len(wanted)
    floor = low
    for at in order:
        found[at] = max(wanted[at], floor)
        floor = found[at] + apart
    ceiling = high
    for at in reversed(order):
        found[at] = min(found[at], ceiling)
        ceiling = found[at] - apart
    return found
