#!/usr/bin/env python3
"""Draws ../hero.svg from hero.whatif and hero.out: the script at the left, its table and its comparison at the right.

    draw/hero.py      writes ../hero.svg
    draw/hero.py -    writes the picture to standard output
"""

import html
import sys
from dataclasses import dataclass
from pathlib import Path

sys.path.insert(0, str(Path(__file__).resolve().parents[2]))

from examples.tests.replies import EXAMPLES, Example

WIDTH, HEIGHT = 980, 540
INK, QUIET, RISE, FALL, EVEN = "#1b2733", "#5a6b7b", "#1f5f99", "#c55a11", "#8a949e"


@dataclass(frozen=True)
class Replies:
    """What the picture shows: the script, the table's records, the comparison's records, and the labels of its cells."""

    script: list[str]
    table: list[list[str]]
    compared: list[list[str]]
    labels: dict[str, str]


def read_replies() -> Replies:
    """The script with its stored replies. The labels are those of column A."""
    example = Example("hero")
    script = example.script.splitlines()
    first = script.index("csv A1 4") + 1
    labels = [line.partition(",")[0] for line in script[first : first + 4]]
    labels.append(next(line for line in script if line.startswith("set A5 ")).removeprefix("set A5 '"))
    table, compared = (next(reply.records for reply in example.replies if reply.command.startswith(word)) for word in ("table ", "compare "))
    return Replies(script, table, compared, {f"B{row}": label for row, label in enumerate(labels, 1)})


def text(x: float, y: float, words: str, **style: object) -> str:
    """A line of text; the style's names have _ for -."""
    rest = "".join(f' {name.replace("_", "-")}="{value}"' for name, value in style.items())
    return f'<text x="{x:g}" y="{y:g}"{rest}>{html.escape(words)}</text>'


def box(x: float, y: float, width: float, height: float, **style: object) -> str:
    rest = "".join(f' {name.replace("_", "-")}="{value}"' for name, value in style.items())
    return f'<rect x="{x:g}" y="{y:g}" width="{width:g}" height="{height:g}"{rest}/>'


def grouped(number: str) -> str:
    """A whole number with its digits in groups of three, and a minus sign in place of a hyphen."""
    return f"{int(number):,}".replace("-", "\u2212").replace(",", "\u202f")


def signed(number: str) -> str:
    """A difference with its sign."""
    words = grouped(number) if "." not in number else number.replace("-", "\u2212")
    return words if number.startswith("-") else "+" + words


def plain(number: str) -> str:
    return grouped(number) if "." not in number else number


def colour(value: float) -> str:
    return RISE if value > 0 else FALL if value < 0 else EVEN


def draw_script(lines: list[str]) -> list[str]:
    """The script in a panel of its own, with its questions in colour."""
    parts = [
        text(24, 38, "A script", font_size=17, font_weight="bold", fill=INK),
        box(24, 52, 424, HEIGHT - 76, rx=6, fill="#f4f6f8", stroke="#d5dbe1"),
    ]
    for number, line in enumerate(lines):
        is_question = line.startswith(("table", "compare"))
        fill = QUIET if line.startswith("#") else RISE if is_question else INK
        weight = "bold" if is_question else "normal"
        style = {"font_family": "ui-monospace, Menlo, Consolas, monospace", "font_size": 13.5, "xml:space": "preserve"}
        parts.append(text(36, 74 + 18.6 * number, line, fill=fill, font_weight=weight, **style))
    return [part for part in parts if "></text>" not in part]


def draw_table(records: list[list[str]]) -> list[str]:
    """The table as a heat map: profits in one colour, losses in the other, the stronger the further from 0."""
    left, top, width, height = 580, 112, 92, 30
    head, *rows = records
    widest = max(abs(float(value)) for row in rows for value in row[1:])
    parts = [
        text(484, 38, "Its table", font_size=17, font_weight="bold", fill=INK),
        text(484, 60, "profit of a year in \u20ac, by pieces sold and price", font_size=14, fill=QUIET),
        text(left - 12, top - 10, "pieces", font_size=14, fill=QUIET, text_anchor="end"),
    ]
    for column, price in enumerate(head[1:]):
        middle = left + (column + 0.5) * width
        parts.append(text(middle, top - 10, f"{price} \u20ac", text_anchor="middle", font_weight="bold", font_size=14, fill=INK))
    for down, (pieces, *profits) in enumerate(rows):
        y = top + down * height
        parts.append(text(left - 12, y + 20, grouped(pieces), text_anchor="end", font_weight="bold", font_size=14, fill=INK))
        for column, value in enumerate(profits):
            x = left + column * width
            opacity = f"{0.10 + 0.45 * abs(float(value)) / widest:.2f}"
            parts.append(box(x + 1, y + 1, width - 2, height - 2, rx=3, fill=colour(float(value)), fill_opacity=opacity))
            parts.append(text(x + width - 12, y + 20, grouped(value), text_anchor="end", font_size=14, fill=INK))
    return parts


def draw_comparison(records: list[list[str]], labels: dict[str, str]) -> list[str]:
    """The comparison with the labels of its cells."""
    top, columns = 372, (718, 828, 948)
    parts = [
        text(484, top - 30, "Its comparison", font_size=17, font_weight="bold", fill=INK),
        text(484, top - 8, "in \u20ac", font_size=14, fill=QUIET),
    ]
    for x, words in zip(columns, ("as planned", "leaner", "difference")):
        parts.append(text(x, top - 8, words, text_anchor="end", font_size=14, fill=QUIET))
    for down, (address, before, after, difference) in enumerate(records):
        y = top + 22 + 30 * down
        parts.append(f'<path d="M484 {y - 20} H948" stroke="#d5dbe1"/>')
        parts.append(text(484, y, labels[address], font_size=14, fill=INK))
        parts.append(text(columns[0], y, plain(before), text_anchor="end", font_size=14, fill=INK))
        parts.append(text(columns[1], y, plain(after), text_anchor="end", font_size=14, fill=INK))
        style = {"text_anchor": "end", "font_weight": "bold", "font_size": 14, "fill": INK}
        parts.append(text(columns[2], y, signed(difference), **style))
    return parts


def picture(replies: Replies) -> str:
    """The whole picture on a light ground of its own, so that it reads the same on a dark page."""
    parts = [
        f'<svg xmlns="http://www.w3.org/2000/svg" viewBox="0 0 {WIDTH} {HEIGHT}" width="{WIDTH}" height="{HEIGHT}"'
        ' font-family="system-ui, Segoe UI, Helvetica, Arial, sans-serif" role="img">',
        "<title>A script of whatif, its table as a heat map, and its comparison</title>",
        box(0.5, 0.5, WIDTH - 1, HEIGHT - 1, rx=10, fill="#ffffff", stroke="#d5dbe1"),
        *draw_script(replies.script),
        *draw_table(replies.table),
        *draw_comparison(replies.compared, replies.labels),
        "</svg>",
    ]
    return "\n".join(parts) + "\n"


def main() -> None:
    drawn = picture(read_replies())
    if sys.argv[1:] == ["-"]:
        sys.stdout.buffer.write(drawn.encode())
    else:
        (EXAMPLES / "hero.svg").write_bytes(drawn.encode())


if __name__ == "__main__":
    main()
