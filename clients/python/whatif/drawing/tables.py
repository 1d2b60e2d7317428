"""The answers of a table as a page shows them: a list or a heat map, and curves."""

from __future__ import annotations

from collections.abc import Sequence
from fractions import Fraction
from typing import Any

from .answers import Answers
from .cells import column_head, download, entry, figures, head, note, row, table
from .curves import curves_html
from .heat import Steps, heat_svg
from .label import Named, label
from .markup import NOTHING, Markup, joined, separated, tag
from .values import drawn_alone, exact, places_for, shown

MOST_SIDE = 40
"""More rows or columns than these are drawn without numbers."""

ENDS = 15
"""So many entries are listed at either end of a long list."""

MOST_ERRORS = 4


def table_html(
    records: Sequence[Sequence[Any]],
    result: Named,
    first: Named,
    second: Named | None = None,
    *,
    now: Sequence[Any] = (),
    cells: Sequence[str] = (),
    places: int | None = None,
    file_name: str = "table.csv",
    is_alike_told: bool = False,
) -> Markup:
    """What `table` has answered: `records` as it writes them, as texts or as values.

    `result`, `first` and `second` are the cells that it names, `now` what the inputs show, `cells` the column and the row that have their values.
    Entries that are all alike are a question, unless it is told elsewhere why they are.

    table_html([["", "0.32"], ["250", "92"]], "B4", Label("B1", "kWh"), Label("B2", "price"), now=["250", "0.32"], cells=["D2:D2", "E1:E1"])
    """
    rows = [[shown(value) for value in record] for record in records]
    ys, rows = (rows[0][1:], rows[1:]) if second is not None else ([""], rows)
    entries = [line[1:] for line in rows]
    present, areas = [*map(shown, now), "", ""], [*cells, "", ""]
    numbers = [[exact(text) for text in line] for line in entries]
    names = label(result), label(first), None if second is None else label(second)
    known = Answers(*names, [line[0] for line in rows], ys, entries, (present[0], present[1]), (areas[0], areas[1]), places, numbers)
    if not known.entries:
        return note("The table has no entry.")
    is_large = len(known.xs) > MOST_SIDE or len(known.ys) > MOST_SIDE
    drawn = large(known, file_name) if is_large else listed(known)
    both = tag("div", drawn, legend(known), class_="most" if is_large else "least")
    return joined([warnings(known, is_alike_told), tag("div", both, curves_html(known), class_="side")])


def caption(known: Answers) -> Markup:
    by = joined([" and ", known.second.html()]) if known.second else NOTHING
    return joined([known.result.html(), " by ", known.first.html(), by])


def warnings(known: Answers, is_alike_told: bool) -> Markup:
    """What is to be said before the answers are read."""
    said = []
    if known.are_alike() and not is_alike_told:
        inputs = known.first.address + (f" and {known.second.address}" if known.second else "")
        said.append(note(f"All answers are alike: does {known.result.address} depend on {inputs}?", classes="e"))
    wrong = known.errors()
    if wrong:
        count = "One entry shows an error" if len(wrong) == 1 else f"{len(wrong)} entries show errors"
        more = f"; {len(wrong) - MOST_ERRORS} more" if len(wrong) > MOST_ERRORS else ""
        said.append(note(f"{count}: ", "; ".join(told_error(known, i, j) for i, j in wrong[:MOST_ERRORS]), more, classes="e"))
    return joined(said)


def told_error(known: Answers, i: int, j: int) -> str:
    x_at, y_at = known.places_of(i, j)
    second = f", {known.second.text} {figures(known.ys[j])}{y_at}" if known.second else ""
    return f"{known.entries[i][j]} at {known.first.text} {figures(known.xs[i])}{x_at}{second}"


def listed(known: Answers) -> Markup:
    """All entries as a table, coloured."""
    places, steps_of = known.drawn_places(), Steps.of(known.ends)
    x_places, y_places = (places_for(number for number in map(exact, texts) if number is not None) for texts in (known.xs, known.ys))
    rows = []
    for i, (x, line) in enumerate(zip(known.xs, known.entries)):
        steps = [steps_of.name(number) for number in known.numbers[i]]
        cells = [entry(text, places, classes=f"{name} here" if known.is_now(i, j) else name) for j, (text, name) in enumerate(zip(line, steps))]
        rows.append(row(head(x, x_places, "now" if x == known.now[0] != "" else ""), *cells))
    if known.second is None:
        heads = [row(column_head(known.first.text), column_head(known.result.text, class_="n"))]
    else:
        ys = [head(y, y_places, "now" if y == known.now[1] != "" else "", scope="col") for y in known.ys]
        over = tag("th", known.second.text, scope="colgroup", colspan=len(ys), class_="over")
        heads = [row(tag("td"), over), row(column_head(known.first.text), *ys)]
    return table(caption(known), heads, rows, "heat")


def large(known: Answers, file_name: str) -> Markup:
    """A heat map without numbers, or the ends of a long list, and the numbers as a file in the page."""
    drawn = ends(known) if known.second is None else mapped(known)
    count = f"{len(known.xs):,} \u00d7 {len(known.ys):,} exact numbers" if known.second else f"{len(known.xs):,} exact numbers"
    return tag("div", drawn, download(known.rows(), f"{count} as CSV", file_name), class_="large")


def ends(known: Answers) -> Markup:
    listed_numbers = [number for line in known.numbers[:ENDS] + known.numbers[-ENDS:] for number in line if number is not None]
    places = places_for(listed_numbers, known.places)
    lines = list(zip(known.xs, known.entries))
    first, last = ([row(head(x), *(entry(text, places) for text in line)) for x, line in part] for part in (lines[:ENDS], lines[-ENDS:]))
    between = row(tag("td", f"{len(lines) - 2 * ENDS:,} more", colspan=2, class_="soft"))
    heads = [row(column_head(known.first.text), column_head(known.result.text, class_="n"))]
    return table(caption(known), heads, [*first, between, *last])


def mapped(known: Answers) -> Markup:
    assert known.second is not None
    now = next(((i, j) for i in range(len(known.xs)) if known.xs[i] == known.now[0] for j in range(len(known.ys)) if known.is_now(i, j)), None)
    title = f"{known.result.text} by {known.first.text} and {known.second.text}, without numbers"
    ranges = [span(known.second.text, known.ys, "to the right"), span(known.first.text, known.xs, "downwards")]
    if known.known:
        low, high = map(told_number, known.ends)
        ranges.append(joined([f"{known.result.text}: from ", low, " to ", high]))
    words = joined([caption(known), ": ", separated(ranges, "; ")])
    return tag("figure", heat_svg(known.numbers, known.ends, now, title), tag("figcaption", words, class_="soft"))


def told_number(number: Fraction) -> Markup:
    return tag("span", drawn_alone(number).marked, title=shown(number))


def span(name: str, texts: list[str], way: str) -> str:
    return f"{name}: from {figures(texts[0])} to {figures(texts[-1])} {way}"


def legend(known: Answers) -> Markup:
    """What the colours say."""
    low, high = known.ends
    is_list = known.second is None and len(known.xs) > MOST_SIDE
    if is_list or low == high:
        return NOTHING
    if low < 0 < high:
        parts = [tag("span", "below 0", class_="key b7"), tag("span", "above 0", class_="key a7")]
    else:
        parts = [tag("span", "lowest", class_="key a1"), tag("span", "highest", class_="key a9")]
    now = any(known.is_now(i, j) for i in range(len(known.xs)) for j in range(len(known.ys))) if known.now[0] else False
    return tag("p", separated(parts, " "), tag("span", "as it is now", class_="key here") if now else NOTHING, class_="soft legend")
