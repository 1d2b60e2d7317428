"""Tornado: each input alone a part lower and higher, and what a cell shows then; what moves it most stands at the top."""

from __future__ import annotations

from collections.abc import Sequence
from dataclasses import dataclass
from fractions import Fraction

from .cells import column_head, entry, note, row, table
from .label import Label, Named, label
from .markup import NOTHING, Markup, decimal, joined, tag
from .values import drawn_alone, exact, places_for, shown

REACH = 1000
MOST_BARS = 12
MOST_FAULTS = 4
MOST_LISTED = 100


@dataclass(frozen=True)
class Bar:
    """An input, its value, and what the result shows with a lower and with a higher one."""

    input: Label
    value: Fraction
    low: Fraction
    high: Fraction
    low_result: str
    high_result: str

    def results(self) -> tuple[Fraction, Fraction] | None:
        low, high = exact(self.low_result), exact(self.high_result)
        return None if low is None or high is None else (low, high)

    def swing(self, base: Fraction) -> Fraction:
        """From the least to the greatest result, the one of today being one of them."""
        known = self.results()
        return Fraction(0) if known is None else max(*known, base) - min(*known, base)


def tornado_html(
    result: Named, base: Fraction, bars: Sequence[Bar], by: Fraction, *, places: int | None = None, remarks: Sequence[str] = ()
) -> Markup:
    """The inputs of a result by how far they move it. `by` is the part, `base` the result as it is.

    tornado_html("B4", Fraction(92), [Bar(Label("B1", "kWh"), Fraction(250), Fraction(225), Fraction(275), "84", "100")], Fraction(1, 10))
    """
    goal = label(result)
    moving = sorted((known for known in bars if known.swing(base)), key=lambda known: -known.swing(base))
    faults = [known for known in bars if known.results() is None]
    still = len(bars) - len(moving) - len(faults)
    other = "more " if moving else ""
    told = [counted(still, f"{other}input in reach doesn\u2019t move it.", f"{other}inputs in reach don\u2019t move it.")] if still else []
    notes = [*(note(fault_text(known), classes="e") for known in faults[:MOST_FAULTS]), *(note(text) for text in [*told, *remarks])]
    if not moving:
        return joined(notes)
    drawn_bars = moving[:MOST_BARS]
    part = shown(by * 100)
    lower, higher = tag("b", f"{part} % lower", class_="low"), tag("b", f"{part} % higher", class_="high")
    intro = note("Each input alone, ", lower, " and ", higher, "; now ", tag("span", drawn_alone(base).marked, title=shown(base)), ".")
    rest = more_html(moving[MOST_BARS:], base, places)
    return joined([intro, chart(goal, base, drawn_bars, by, places), *notes, rest])


def counted(count: int, one: str, many: str) -> str:
    return f"{count} {one if count == 1 else many}"


def fault_text(known: Bar) -> str:
    cases = ((known.low, known.low_result), (known.high, known.high_result))
    wrong = next((value, text) for value, text in cases if exact(text) is None)
    return f"Not drawn: {known.input.text} ({known.input.address}), since {drawn_alone(wrong[0]).marked} gives {wrong[1] or 'nothing'}."


def chart(goal: Label, base: Fraction, bars: Sequence[Bar], by: Fraction, places: int | None) -> Markup:
    ends = [end for known in bars for end in known.results() or ()]
    low, high = min(*ends, base), max(*ends, base)
    digits = places_for([*ends, base], places)
    part = shown(by * 100)
    lower, higher = (column_head(f"{sign}{part}\u202f%", class_="n") for sign in "\u2212+")
    heads = row(column_head("input"), lower, column_head("", class_="bar", aria_label="the results as bars"), higher)
    rows = [bar_row(known, base, low, high, digits) for known in bars]
    return table(joined([goal.html(), " by input"]), [heads], rows, "tornado")


def bar_row(known: Bar, base: Fraction, low: Fraction, high: Fraction, digits: int) -> Markup:
    value = tag("small", f" {drawn_alone(known.value).marked}", title=shown(known.value))
    low_cell, high_cell = both(known, digits)
    name = tag("th", known.input.html(), value, scope="row")
    return row(name, low_cell, tag("td", bar_svg(known, base, low, high), class_="bar"), high_cell)


def bar_svg(known: Bar, base: Fraction, low: Fraction, high: Fraction) -> Markup:
    """Both results from the base on, from 0 for the lowest of all to 1000 for the highest."""

    def at(number: Fraction) -> float:
        return float((number - low) / (high - low)) * REACH

    rects = []
    results = known.results()
    assert results is not None
    for end, name, top in ((results[0], "low", 2), (results[1], "high", 9)):
        start, wide = min(at(end), at(base)), abs(at(end) - at(base))
        rects.append(tag("rect", x=decimal(start), y=top, width=decimal(wide), height=7, class_=name))
    axis = tag("line", x1=decimal(at(base)), x2=decimal(at(base)), y1=0, y2=18, class_="zero")
    return tag("svg", *rects, axis, viewBox=f"0 0 {REACH} 18", class_="bar", preserveAspectRatio="none", aria_hidden="true")


def both(known: Bar, digits: int) -> tuple[Markup, Markup]:
    """The lower and the higher result, each titled with the value of the input that gives it."""
    at = known.input.address
    low = entry(known.low_result, digits, title=f"{at} {shown(known.low)}: ")
    return low, entry(known.high_result, digits, title=f"{at} {shown(known.high)}: ")


def more_html(bars: Sequence[Bar], base: Fraction, places: int | None) -> Markup:
    """The inputs that move the result less, as a list of at most a hundred."""
    if not bars:
        return NOTHING
    count, bars = len(bars), bars[:MOST_LISTED]
    ends = [end for known in bars for end in known.results() or ()]
    digits = places_for([*ends, base], places)
    rows = [row(tag("th", known.input.html(), scope="row"), entry(shown(known.value)), *both(known, digits)) for known in bars]
    heads = row(column_head("input"), *(column_head(text, class_="n") for text in ("now", "lower", "higher")))
    summary = tag("summary", f"{counted(count, 'input moves', 'inputs move')} it less")
    left_out = note(f"{count - MOST_LISTED:,} more aren't listed.") if count > MOST_LISTED else NOTHING
    return tag("details", summary, table("inputs that move it less", [heads], rows), left_out)
