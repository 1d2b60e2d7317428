"""Scripts cut into commands, and what the program writes cut into replies, as the manual defines both."""

import re
from dataclasses import dataclass

from whatif_tools import script as lines_of_script
from whatif_tools.program import whole_replies
from whatif_tools.sheet import COLUMNS, ROWS, column_letters, column_number

LARGEST_LISTED_AREA = 512
ADDRESS = re.compile(rb"\$?([A-Za-z]{1,3})\$?([1-9][0-9]{0,6})(?![0-9A-Za-z_])")
AREA = re.compile(ADDRESS.pattern + rb"(?::\.?" + ADDRESS.pattern + rb")?")

OUT_OF_MEMORY = b"refused E01\n"
FOUND_IN_WORDS = re.compile(rb"refused E(02|03|15)\n")
FOUND_BEFORE_MEMORY = re.compile(rb"refused E(02|03|10|11|12|15|19)\n")
"""Refusals that are found before anything grows, so that E01 never stands in their place, but for those of data lines; and
those of them that don't depend on the commands before."""


class BadReplies(Exception):
    """What was written isn't a list of whole replies."""


@dataclass(frozen=True)
class Command:
    """A line that is answered, with its data lines, each with its line end."""

    text: bytes
    is_cut: bool = False
    """Whether the input ends before its last data line, so that no command can follow it."""


def commands(script: bytes) -> list[Command]:
    """The commands of a script, without the lines that are passed over. A last line gets its LF where it lacks it."""
    lines = lines_of_script.lines_of(script)
    return [Command(b"".join(line + b"\n" for line in lines[one.line - 1 : one.last_line]), one.is_cut) for one in lines_of_script.commands(lines)]


def joined(parts: list[Command]) -> bytes:
    """The script of these commands."""
    return b"".join(part.text for part in parts)


def replies(written: bytes) -> list[bytes]:
    """The replies that were written."""
    found, rest = whole_replies(written)
    if rest:
        raise BadReplies(f"no reply at byte {len(written) - len(rest)}: {rest[:40]!r}")
    return found


def may_lack_memory(command: Command, reply: bytes, is_first: bool) -> bool:
    """Whether E01 may stand in place of a reply of the script: in a run where none stood before it, or any."""
    line, _, data = command.text.partition(b"\n")
    if line.split()[:1] == [b"drop"]:
        return False
    return bool(data) or not (FOUND_BEFORE_MEMORY if is_first else FOUND_IN_WORDS).fullmatch(reply)


def area_cells(first: tuple[int, int], last: tuple[int, int]) -> list[tuple[int, int]]:
    """The cells between two corners, each a row and a column; of a large area, its corners alone."""
    rows = sorted((first[0], last[0]))
    columns = sorted((first[1], last[1]))
    if (rows[1] - rows[0] + 1) * (columns[1] - columns[0] + 1) > LARGEST_LISTED_AREA:
        return [(row, column) for row in rows for column in columns]
    return [(row, column) for row in range(rows[0], rows[1] + 1) for column in range(columns[0], columns[1] + 1)]


def named_areas(command: Command) -> list[tuple[tuple[int, int], tuple[int, int]]]:
    """The areas that a command names, in its operands, its formula or by its data lines."""
    line, _, data = command.text.partition(b"\n")
    areas = []
    for found in AREA.finditer(line):
        columns, rows, last_columns, last_rows = found.groups()
        first = int(rows), column_number(columns.decode())
        areas.append((first, (int(last_rows), column_number(last_columns.decode())) if last_columns else first))
    if data and areas:
        row, column = areas[0][0]
        fields = 1 + max(one.count(b",") for one in data.split(b"\n"))
        areas.append(((row, column), (row + data.count(b"\n") - 1, column + fields - 1)))
    return areas


def named_cells(parts: list[Command]) -> list[str]:
    """The cells of the sheet that a script names, in row-major order."""
    cells: set[tuple[int, int]] = set()
    for part in parts:
        for first, last in named_areas(part):
            cells.update(area_cells(first, last))
    return [f"{column_letters(column)}{row}" for row, column in sorted(cells) if column <= COLUMNS and row <= ROWS]


def inspection(parts: list[Command]) -> list[Command]:
    """`show` and `formula` of all cells that a script names."""
    return [Command(f"{word} {cell}\n".encode()) for cell in named_cells(parts) for word in ("show", "formula")]
