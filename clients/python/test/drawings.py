"""Reads drawings back: their markup as a tree, and the numbers that their lines, bars and colours stand for."""

from __future__ import annotations

import re
from collections.abc import Iterator
from fractions import Fraction
from xml.etree import ElementTree

Node = ElementTree.Element


def tree(markup: str) -> Node:
    """A drawing as a tree; what isn't well-formed is an error."""
    return ElementTree.fromstring(f"<div>{markup}</div>")


def words(node: Node) -> str:
    return "".join(node.itertext())


def classes(node: Node) -> set[str]:
    return set(node.get("class", "").split())


def of_class(node: Node, tag: str, name: str) -> list[Node]:
    return [found for found in node.iter(tag) if name in classes(found)]


def number(text: str) -> Fraction:
    """A number as it is drawn: with a true minus, groups, a sign where it is rounded, a power of ten."""
    plain = re.sub("[\u202f\u2248+%]", "", text).replace("\u2212", "-")
    part, times, power = plain.partition("\u00b710")
    raised = power.translate(str.maketrans("\u207b\u2070\u00b9\u00b2\u00b3\u2074\u2075\u2076\u2077\u2078\u2079", "-0123456789"))
    return Fraction(part) * (Fraction(10) ** int(raised) if times else 1)


def rows(table: Node) -> list[list[str]]:
    """The exact texts of a table's rows: the last word of each title, or else what is shown."""
    return [[cell.get("title", "").split(" ")[-1] or words(cell).strip() for cell in line if "bar" not in classes(cell)] for line in table.iter("tr")]


class Scales:
    """From places back to numbers, by the ticks of a drawing of curves."""

    def __init__(self, svg: Node) -> None:
        self.x = self.scale(of_class(svg, "text", "x"), "x", 0.0)
        self.y = self.scale(of_class(svg, "text", "y"), "y", -4.0)

    def scale(self, ticks: list[Node], name: str, shift: float) -> tuple[float, float]:
        """The number at place 0, and how much it rises with each unit."""
        known = [(float(tick.get(name, "")) + shift, number(words(tick))) for tick in ticks]
        (first, low), (last, high) = known[0], known[-1]
        slope = float(high - low) / (last - first)
        return float(low) - slope * first, slope

    def points(self, line: Node) -> Iterator[tuple[float, float]]:
        for pair in line.get("points", "").split():
            x, y = map(float, pair.split(","))
            yield self.x[0] + self.x[1] * x, self.y[0] + self.y[1] * y


def map_classes(svg: Node) -> list[list[str]]:
    """The class of each entry of a large heat map."""
    width, height = map(int, svg.get("viewBox", "").split()[2:])
    found = [[""] * width for _ in range(height)]
    for path in svg.iter("path"):
        for x, y, count in re.findall(r"M(\d+) (\d+)h(\d+)v1h-\d+z", path.get("d", "")):
            for at in range(int(x), int(x) + int(count)):
                assert found[int(y)][at] == "", "an entry is drawn twice"
                found[int(y)][at] = path.get("class", "")
    return found
