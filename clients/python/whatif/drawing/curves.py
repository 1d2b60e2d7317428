"""The answers of a table as lines over the first input: one for each value of the second."""

from __future__ import annotations

from collections.abc import Iterator
from dataclasses import dataclass
from fractions import Fraction
from functools import cached_property

from .answers import Answers
from .colours import LINES
from .markup import NOTHING, Markup, decimal, joined, separated, tag
from .places import SIZE, Box, Room, fitting, spread, text_box, width
from .scale import Scale, tick_texts, ticks, widened
from .values import FIGURES, NEARLY, THIN, drawn_alone, exact, extremes, floating, magnitude, rounded

WIDTH, HEIGHT, TOP, BOTTOM = 440, 280, 30, 44
MOST_LABEL = 120.0
MOST_DOTS = 40
MOST_TICKS = 6
ROOM_BELOW = Fraction(1, 7)
"""Of what is above 0, so much is left below it for the places where lines cross it."""

MOST_CROSSINGS = 8
"""So many are marked of a line, and told."""

Point = tuple[Fraction, Fraction]


@dataclass(frozen=True)
class Line:
    """The entries of a column, in the order of x; None where an entry is no number."""

    head: str
    xs: list[Fraction]
    ys: list[Fraction | None]

    def pieces(self) -> Iterator[list[Point]]:
        """The points, without those that are none."""
        piece: list[Point] = []
        for x, y in zip(self.xs, self.ys):
            if y is not None:
                piece.append((x, y))
            elif piece:
                yield piece
                piece = []
        if piece:
            yield piece

    @cached_property
    def crossings(self) -> list[tuple[Fraction, bool]]:
        """Where the line crosses 0 or is 0, and whether an entry says so; between two entries it is taken to be straight."""
        found: dict[Fraction, bool] = {}
        for piece in self.pieces():
            signs = [y.numerator for _, y in piece]
            if not any(signs):
                continue
            found.update({piece[at][0]: True for at, sign in enumerate(signs) if sign == 0})
            for at, (sign, then) in enumerate(zip(signs, signs[1:])):
                if sign < 0 < then or then < 0 < sign:
                    found[zero_between(*piece[at], *piece[at + 1])] = False
        return sorted(found.items())


def zero_between(x: Fraction, y: Fraction, after: Fraction, then: Fraction) -> Fraction:
    """Where a straight line between two points is 0."""
    return x + (after - x) * y / (y - then)


def lines_of(answers: Answers) -> list[Line]:
    """The columns as lines, at most six: the first, the last, today's and some between; none where x isn't a number all along."""
    xs = [exact(text) for text in answers.xs]
    known = [x for x in xs if x is not None]
    if len(known) < len(xs) or all(x == known[0] for x in known) or not answers.known:
        return []
    order = sorted(range(len(known)), key=lambda i: (floating(known[i]), known[i]))
    columns = chosen(answers)
    heads = [short_head(answers.ys[j]) for j in columns]
    found = [Line(head, [known[i] for i in order], [answers.numbers[i][j] for i in order]) for head, j in zip(heads, columns)]
    return [line for line in found if any(y is not None for y in line.ys)]


def chosen(answers: Answers) -> list[int]:
    count = len(answers.ys)
    if count <= LINES:
        return list(range(count))
    spaced = {round(at * (count - 1) / (LINES - 1)) for at in range(LINES)}
    if answers.now[1] in answers.ys:
        now = answers.ys.index(answers.now[1])
        spaced.remove(min(spaced - {0, count - 1}, key=lambda j: abs(j - now)))
        spaced.add(now)
    return sorted(spaced)


def short_head(text: str) -> str:
    number = exact(text)
    return text if number is None else drawn_alone(number).marked


class Curves:
    """A drawing of lines, with their scales and the places of its texts."""

    def __init__(self, answers: Answers, lines: list[Line]) -> None:
        self.answers, self.lines = answers, lines
        is_all = len(answers.ys) <= LINES
        low, high = widened(*(answers.ends if is_all else extremes([y for line in lines for y in line.ys if y is not None])))
        if any(line.crossings for line in lines):
            low = min(low, -high * ROOM_BELOW)
        self.y_ticks = ticks(low, high, 5)
        self.y_texts = tick_texts(self.y_ticks)
        left = max(map(width, self.y_texts)) + 8
        xs = lines[0].xs
        half = max(map(width, tick_texts(ticks(xs[0], xs[-1], MOST_TICKS)))) / 2
        right = max(half, min(MOST_LABEL, max(width(line.head) for line in lines) + 12) if len(lines) > 1 else 0.0)
        self.x = Scale(xs[0], xs[-1], left, WIDTH - right)
        self.y = Scale(low, high, HEIGHT - BOTTOM, TOP)
        self.room = Room(Box(left, 0, WIDTH - right, HEIGHT - BOTTOM))

    def svg(self) -> Markup:
        title = f"{self.answers.result.text} by {self.answers.first.text}"
        parts = [*self.grid(), *self.names(), *self.now(), *self.drawn_lines(), *self.zeros(), *self.heads()]
        return tag("svg", tag("title", title), *parts, viewBox=f"0 0 {WIDTH} {HEIGHT}", class_="curves", role="img")

    def grid(self) -> Iterator[Markup]:
        for tick, text in zip(self.y_ticks, self.y_texts):
            y = decimal(self.y.at(tick))
            yield tag("line", x1=decimal(self.x.start), x2=decimal(self.x.end), y1=y, y2=y, class_="zero" if tick == 0 else "grid")
            yield tag("text", text, x=decimal(self.x.start - 5), y=decimal(self.y.at(tick) + 4), class_="tick y end")
        yield from self.x_ticks()

    def x_ticks(self) -> Iterator[Markup]:
        """As many ticks below as have room beside one another."""
        for wanted in range(MOST_TICKS, 0, -1):
            numbers = ticks(self.x.low, self.x.high, wanted)
            texts = tick_texts(numbers)
            if sum(width(text) + 8 for text in texts) <= self.x.end - self.x.start:
                break
        for tick, text in zip(numbers, texts):
            x = self.x.at(tick)
            yield tag("line", x1=decimal(x), x2=decimal(x), y1=HEIGHT - BOTTOM, y2=HEIGHT - BOTTOM + 4, class_="zero")
            yield tag("text", text, x=decimal(x), y=HEIGHT - BOTTOM + 17, class_="tick x middle")

    def names(self) -> Iterator[Markup]:
        """What goes up and what goes to the right."""
        for text, at in ((self.answers.result.text, SIZE), (self.answers.first.text, HEIGHT - 8)):
            short = fitting(text, WIDTH - 8)
            middle = min(max((self.x.start + self.x.end) / 2, width(short) / 2 + 4), WIDTH - width(short) / 2 - 4)
            whole = tag("title", text) if short != text else NOTHING
            yield tag("text", short, whole, x="4" if at == SIZE else decimal(middle), y=at, class_="name" if at == SIZE else "name middle")

    def now(self) -> Iterator[Markup]:
        """A line at what the input shows."""
        number = exact(self.answers.now[0])
        if number is None or not self.x.low <= number <= self.x.high:
            return
        x, text = self.x.at(number), f"now {drawn_alone(number).marked}"
        yield tag("line", x1=decimal(x), x2=decimal(x), y1=TOP - 6, y2=HEIGHT - BOTTOM, class_="now")
        for anchor, at in (("start", x + 4), ("end", x - 4)):
            if self.room.take(text_box(at, TOP, text, anchor)):
                yield tag("text", text, x=decimal(at), y=TOP, class_=f"tick halo {anchor}", data_now=self.answers.now[0])
                return

    def drawn_lines(self) -> Iterator[Markup]:
        for count, line in enumerate(self.lines):
            for piece in line.pieces():
                points = " ".join(f"{decimal(self.x.at(x))},{decimal(self.y.at(y))}" for x, y in thinned(piece, self.x))
                yield tag("polyline", points=points, class_=f"line line{count}", data_of=line.head or None)
                if len(line.xs) <= MOST_DOTS:
                    yield from self.dots(count, piece)

    def dots(self, count: int, piece: list[Point]) -> Iterator[Markup]:
        for x, y in piece:
            told = tag("title", f"{drawn_alone(x).marked}: {drawn_alone(y).marked}")
            yield tag("circle", told, cx=decimal(self.x.at(x)), cy=decimal(self.y.at(y)), r=2.5, class_=f"dot line{count}")

    def zeros(self) -> Iterator[Markup]:
        """Rings where lines cross 0, and their x where there is room and no other ring is beside it."""
        y = self.y.at(Fraction(0))
        found = [(count, at, is_entry) for count, line in enumerate(self.lines) for at, is_entry in line.crossings[:MOST_CROSSINGS]]
        for count, at, _ in found:
            x = self.x.at(at)
            self.room.taken.append(Box(x - 5, y - 5, x + 5, y + 5))
            yield tag("circle", cx=decimal(x), cy=decimal(y), r=5, class_=f"ring line{count}")
        for count, at, is_entry in found:
            x, text = self.x.at(at), crossing_text(at, is_entry, self.lines[count])
            others = [self.x.at(other) for _, other, _ in found if other != at]
            for right, baseline, anchor in ((x + side, y + down, anchor) for down in (18, -9) for side, anchor in ((6, "start"), (-6, "end"))):
                box = text_box(right, baseline, text, anchor)
                if not any(box.left < other < box.right for other in others) and self.room.take(box):
                    title = tag("title", str(at))
                    yield tag("text", text, title, x=decimal(right), y=decimal(baseline), class_=f"crossing halo line{count} {anchor}")
                    break

    def heads(self) -> Iterator[Markup]:
        """At the end of each of several lines its value of the second input."""
        if len(self.lines) == 1:
            return
        ends = [self.y.at(next(y for y in reversed(line.ys) if y is not None)) + 4 for line in self.lines]
        for count, (line, y) in enumerate(zip(self.lines, spread(ends, SIZE + 3, TOP, HEIGHT - BOTTOM + 4))):
            text = fitting(line.head, MOST_LABEL - 8)
            yield tag("text", text, x=decimal(self.x.end + 7), y=decimal(y), class_=f"head line{count}")


def thinned(piece: list[Point], scale: Scale) -> list[Point]:
    """The points of a line; of very many, those that are first, last, lowest and highest at each place of the scale."""
    if len(piece) <= 4 * WIDTH:
        return piece
    low, unit = floating(scale.low), floating(scale.high - scale.low) / (scale.end - scale.start)
    heights = [floating(y) for _, y in piece]
    groups: dict[int, list[int]] = {}
    for at, (x, _) in enumerate(piece):
        groups.setdefault(int((floating(x) - low) / unit), []).append(at)
    kept: list[Point] = []
    for group in groups.values():
        wanted = {group[0], group[-1], min(group, key=heights.__getitem__), max(group, key=heights.__getitem__)}
        kept += [piece[at] for at in sorted(wanted)]
    return kept


def crossing_text(at: Fraction, is_entry: bool, line: Line) -> str:
    """A place as it is told: with four figures of how far the line goes, and with a sign unless an entry says so exactly."""
    told = rounded(at, max(0, FIGURES - magnitude(line.xs[-1] - line.xs[0])))
    text = drawn_alone(told).text
    return text if is_entry and told == at else NEARLY + THIN + text


def crossings_html(answers: Answers, lines: list[Line]) -> Markup:
    """The places where lines cross 0, in words."""
    told = []
    for line in lines:
        found = line.crossings
        places = [tag("span", crossing_text(at, is_entry, line), title=str(at)) for at, is_entry in found[:MOST_CROSSINGS]]
        if places:
            more = f" and {len(found) - MOST_CROSSINGS} more" if len(found) > MOST_CROSSINGS else ""
            of = f" ({answers.second.text} {line.head})" if answers.second is not None else ""
            told.append(joined([separated(places, ", "), more, of]))
    return tag("p", answers.result.text, " is 0 where ", answers.first.text, " is ", separated(told, "; "), class_="crossings") if told else NOTHING


def curves_html(answers: Answers) -> Markup:
    """The drawing and its crossings; nothing where there is no line, or nothing to see on it."""
    lines = [] if answers.are_alike() else lines_of(answers)
    if not lines:
        return NOTHING
    many = "" if answers.second is None or len(lines) == 1 else f"Each line is a value of {answers.second.text}"
    left_out = f", {len(lines)} of {len(answers.ys)}" if len(lines) < len(answers.ys) else ""
    caption = tag("figcaption", many + left_out, class_="soft") if many else NOTHING
    return tag("figure", Curves(answers, lines).svg(), caption, crossings_html(answers, lines))
