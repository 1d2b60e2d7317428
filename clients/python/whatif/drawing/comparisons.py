"""Comparisons of two states, all scenarios side by side, and lists of changes."""

from __future__ import annotations

from collections.abc import Mapping, Sequence
from dataclasses import dataclass
from fractions import Fraction
from typing import Any

from .cells import MOST_DRAWN, column_head, entry, folded, in_figures, note, row, table
from .label import Label
from .markup import NOTHING, Markup, decimal, joined, tag
from .values import drawn, exact, places_for, shown

REACH = 100
"""Half of the width of a bar's drawing."""

AS_IT_IS = "as it is"


def comparison_html(
    records: Sequence[Sequence[Any]], before: str = "-", after: str = "-", *, labels: Mapping[str, str] | None = None, places: int | None = None
) -> Markup:
    """What `compare` has answered: `records` of an address, both values and their difference, as texts or as values.

    comparison_html([["B4", "92", "140", "48"]], "-", "winter", labels={"B4": "bill"})
    """
    if not records:
        return note("Nothing differs.")
    rows = [[shown(value) for value in record] for record in records[:MOST_DRAWN]]
    parts = [part_of(line[1], line[3]) for line in rows]
    longest = max((abs(part) for part in parts if part is not None), default=Fraction(0)) or Fraction(1)
    body = []
    for (address, one, other, by), part in zip(rows, parts):
        digits = common_places([one, other, by], places)
        name = tag("th", named(address, labels).html(), scope="row")
        cells = (entry(one, digits), entry(other, digits), change(by, part, digits), tag("td", bar(part, longest), class_="bar"))
        body.append(row(name, *cells))
    heads = [column_head("cell"), *(column_head(text, class_="n") for text in (state(before), state(after), "change"))]
    caption = joined([state(before), " and ", state(after)])
    drawn_rows = folded(caption, [row(*heads, column_head("", class_="bar", aria_label="change as a bar"))], body)
    return joined([drawn_rows, left_out(records)])


def left_out(records: Sequence[Sequence[Any]]) -> Markup:
    return note(f"{len(records) - MOST_DRAWN:,} more aren't drawn.") if len(records) > MOST_DRAWN else NOTHING


def state(name: str) -> str:
    return AS_IT_IS if name == "-" else name


def named(address: str, labels: Mapping[str, str] | None) -> Label:
    return Label(address, (labels or {}).get(address, ""))


def common_places(texts: Sequence[str], places: int | None) -> int:
    return places_for([number for number in map(exact, texts) if number is not None], places)


def part_of(before: str, by: str) -> Fraction | None:
    """A difference as a part of what was before; None where that is no number or 0."""
    one, difference = exact(before), exact(by)
    return None if not one or difference is None else difference / abs(one)


def change(by: str, part: Fraction | None, places: int) -> Markup:
    """A difference, with its percent."""
    number = exact(by)
    if number is None:
        return entry(by, places, plus=True)
    return tag("td", in_figures(number, places, plus=True), percent(part), class_="n", title=by)


def percent(part: Fraction | None) -> Markup:
    """A part as percent at one decimal, with the exact percent as its title; only the room for it where there is none."""
    if not part:
        return tag("small", class_="part")
    return tag("small", f"{drawn(part * 100, 1, plus=True).text}\u202f%", class_="part", title=f"{shown(part * 100)}\u202f%")


def bar(part: Fraction | None, longest: Fraction) -> Markup:
    """A bar from the middle, to the left for less and to the right for more."""
    if part is None:
        return NOTHING
    wide = float(abs(part) / longest) * REACH
    axis = tag("line", x1=REACH, x2=REACH, y1=0, y2=16, class_="zero")
    rect = tag("rect", x=decimal(REACH - wide if part < 0 else REACH), y=3, width=decimal(wide), height=10, class_="less" if part < 0 else "more")
    return tag("svg", rect, axis, viewBox=f"0 0 {2 * REACH} 16", class_="bar", preserveAspectRatio="none", aria_hidden="true")


@dataclass(frozen=True)
class State:
    """A scenario, or the sheet as it is, whose name is `-`: what its cells show."""

    name: str
    values: Mapping[str, str]
    base: str = ""


def scenarios_html(states: Sequence[State], cells: Sequence[str], *, labels: Mapping[str, str] | None = None, places: int | None = None) -> Markup:
    """Cells under all scenarios, the first state being the one with which the others are compared."""
    digits = {at: common_places([known.values.get(at, "") for known in states], places) for at in cells}
    first = states[0]

    def value(known: State, at: str) -> Markup:
        text = known.values.get(at, "")
        part = part_of(first.values.get(at, ""), difference(first.values.get(at, ""), text))
        number = exact(text)
        if known is first or number is None:
            return entry(text, digits[at])
        return tag("td", in_figures(number, digits[at]), percent(part), class_="n", title=text)

    def head(known: State, scope: str) -> Markup:
        based = tag("small", f" on {known.base}") if known.base else NOTHING
        return tag("th", state(known.name), based, scope=scope, class_="n" if scope == "col" else None)

    names = {at: named(at, labels).html() for at in cells}
    if len(states) > len(cells):
        heads = [column_head("scenario"), *(column_head(names[at], class_="n") for at in cells)]
        rows = [row(head(known, "row"), *(value(known, at) for at in cells)) for known in states]
    else:
        heads = [column_head("cell"), *(head(known, "col") for known in states)]
        rows = [row(tag("th", names[at], scope="row"), *(value(known, at) for known in states)) for at in cells]
    return joined([table("all scenarios", [row(*heads)], rows), note("The percents say by how much a value differs from the sheet as it is.")])


def difference(before: str, after: str) -> str:
    one, other = exact(before), exact(after)
    return "" if one is None or other is None else shown(other - one)


def changes_html(
    changes: Sequence[Sequence[Any]], *, labels: Mapping[str, str] | None = None, places: int | None = None
) -> Markup:
    """What `changes` has answered: each cell with its value before, if the session had seen one, and now."""
    if not changes:
        return note("Nothing has changed since.")
    heads = row(column_head("cell"), column_head("before", class_="n"), column_head("now", class_="n"))
    names = [tag("th", named(change[0], labels).html(), scope="row") for change in changes[:MOST_DRAWN]]
    rows = [row(name, *(entry(shown(value), places) for value in change[1:])) for name, change in zip(names, changes)]
    return joined([folded("what has changed since the session looked last", [heads], rows), left_out(changes)])
