"""What data lines were perhaps meant to be."""

from collections.abc import Iterator
from dataclasses import dataclass

from .data import Record, opened, records
from .finding import Finding, Kind
from .formula import formula_meant, is_formula
from .numbers import is_date, is_value, meant_as_number
from .script import Command, looks_like_command


def data_findings(command: Command) -> Iterator[Finding]:
    lines = [line.decode(errors="replace").removesuffix("\r") for line in command.data]
    if not lines:
        return
    found_records = records(command)
    texts = list(texts_of(found_records))

    def found(kind: Kind, line: int, message: str, column: int = 1) -> Finding:
        return Finding(line, column, kind, message, lines[line - command.line - 1])

    for at, line in enumerate(lines, command.line + 1):
        if looks_like_command(line):
            yield found(Kind.COMMAND_AS_DATA, at, "a command among the data lines: is the number behind csv too large?")
    if all(";" in line for line in lines):
        message = "fields are parted by commas, and these lines have semicolons: sed 's/,/./g; s/;/,/g' makes commas and decimal points of them"
        yield found(Kind.SEMICOLONS, command.line + 1, message)
    elif all("\t" in line for line in lines):
        message = "fields are parted by commas, and these lines have tabs: tr '\\t' ',' makes commas of them, if no field has a comma"
        yield found(Kind.TABS, command.line + 1, message)
    quote = opened(command)
    if quote is not None:
        message = "this quote isn't closed, so one field takes the rest of the data: close it; inside quotes a quote is doubled"
        yield found(Kind.OPEN_QUOTE, quote[0], message, quote[1])
    for at, message in wider(command, found_records)[:1]:
        yield found(Kind.MORE_FIELDS, at, message)
    for column, known in sorted(suspects(command, found_records, texts).items()):
        what = "is a text, no number" if known.count == 1 else f"and {known.count - 1} more below are texts, no numbers"
        yield found(Kind.COLUMN_OF_TEXTS, known.line, f"field {column}: {known.field!r} {what}; {known.advice}")
    for at, formula in formulas(texts)[:1]:
        yield found(Kind.FORMULA_AS_TEXT, at, f"a text, no formula: CSV puts values in; write set for {formula}")


def wider(command: Command, found_records: list[Record]) -> list[tuple[int, str]]:
    """The lines with more fields than the first one, if that has several, and what is said of them."""
    first, *others = found_records or [Record(command.line, [])]
    width = len(first.fields)
    said = f"where the first line of the data has {width}: a decimal has a point, and a field with a comma is in quotes"
    return [(record.line, f"{len(record.fields)} fields, {said}") for record in others if len(record.fields) > width > 1]


@dataclass
class Suspects:
    """The fields of one column of CSV that were meant as numbers."""

    line: int
    field: str
    advice: str
    count: int = 1


Text = tuple[Record, int, str]
"""A field that is no value: its record, its column from 1, and what is in it."""


def texts_of(found_records: list[Record]) -> Iterator[Text]:
    for record in found_records:
        for column, text in enumerate(record.fields, 1):
            if text and not is_value(text):
                yield record, column, text


def suspects(command: Command, found_records: list[Record], texts: list[Text]) -> dict[int, Suspects]:
    """The fields that were meant as numbers, by column.

    A date in CSV is taken for a label, and so is a number with a unit in the first of several lines.
    """
    found: dict[int, Suspects] = {}
    among_numbers = texts_among_numbers(found_records, texts)
    for record, column, text in texts:
        is_head = record.line == command.line + 1 and len(command.data) > 1
        advice = None if is_date(text) else meant_as_number(text, has_unit=not is_head)
        if advice is None and (record.line, column) in among_numbers:
            advice = "the other fields of this column are numbers"
        if advice is not None and column in found:
            found[column].count += 1
        elif advice is not None:
            found[column] = Suspects(record.line, text, advice)
    return found


def texts_among_numbers(found_records: list[Record], texts: list[Text]) -> set[tuple[int, int]]:
    """The lines and columns of texts in columns of which at least two thirds are numbers.

    The first record is taken for a head, and the first field of several for a label.
    """
    columns: dict[int, list[int]] = {}
    for record, column, _ in texts:
        if record is not found_records[0] and may_be_a_number(record, column):
            columns.setdefault(column, []).append(record.line)
    counts = {column: sum(may_be_a_number(record, column) for record in found_records[1:]) for column in columns}
    return {(line, column) for column, lines in columns.items() if 3 * len(lines) <= counts[column] for line in lines}


def may_be_a_number(record: Record, column: int) -> bool:
    """Whether a record has a field in a column, which isn't empty, and isn't the first of several."""
    return column <= len(record.fields) and record.fields[column - 1] != "" and (column > 1 or len(record.fields) == 1)


def formulas(texts: list[Text]) -> list[tuple[int, str]]:
    meant = ((record.line, text if is_formula(text) and len(text) > 1 else formula_meant(text)) for record, _, text in texts)
    return [(line, formula) for line, formula in meant if formula is not None]
