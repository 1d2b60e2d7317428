"""Reads a spreadsheet's OpenDocument XML element by element, in bounded time and memory whatever is in it."""

import re
from collections.abc import Iterator
from pathlib import Path
from xml.parsers import expat

from .document import NUMBERS, Cell, Document, Name, Sheet
from .sheet import COLUMNS, ROWS, Address
from .spreadsheet_file import NotASpreadsheet, chunks

OFFICE, TABLE, TEXT, EXTENSION = (
    "urn:oasis:names:tc:opendocument:xmlns:office:1.0 ",
    "urn:oasis:names:tc:opendocument:xmlns:table:1.0 ",
    "urn:oasis:names:tc:opendocument:xmlns:text:1.0 ",
    "urn:org:documentfoundation:names:experimental:calc:xmlns:calcext:1.0 ",
)
SPREADSHEET, SHEET, ROW, PARAGRAPH = OFFICE + "spreadsheet", TABLE + "table", TABLE + "table-row", TEXT + "p"
ROW_PARENTS = (SHEET, *(TABLE + name for name in ("table-row-group", "table-header-rows", "table-rows")))
CELLS = (TABLE + "table-cell", TABLE + "covered-table-cell")
NAMES, SETTINGS = TABLE + "named-expressions", TABLE + "calculation-settings"
VALUE = {"boolean": "boolean-value", "date": "date-value", "time": "time-value"}
OTHER_FILE = "'file:"
"""The name of a sheet begins so if it is a copy of another file's."""

MOST_ELEMENTS = 3_000_000
DEEPEST = 300
MOST_SHEETS = 1_000
MOST_CELLS = 200_000
MOST_CELLS_IN_ALL = 600_000
LONGEST_KEPT = 40_000
"""A text of more characters goes nowhere: a cell takes 32,767 bytes."""

COUNT = re.compile(r"[0-9]{1,7}")


def read(path: Path) -> Document:
    return parsed(chunks(path), path)


def parsed(read_chunks: Iterator[bytes], path: Path) -> Document:
    """The document that the XML has in it."""
    reader = Reader(Document([], {}))
    parser = expat.ParserCreate(namespace_separator=" ")
    parser.StartElementHandler, parser.EndElementHandler, parser.CharacterDataHandler = reader.start, reader.end, reader.text
    parser.EntityDeclHandler = no_entities
    parser.buffer_text = True
    try:
        for chunk in read_chunks:
            parser.Parse(chunk, False)
        parser.Parse(b"", True)
    except (expat.ExpatError, ValueError, LookupError) as error:
        raise NotASpreadsheet(f"{path} is broken: {error}") from error
    if not reader.document.sheets:
        raise NotASpreadsheet(f"{path} has no {'sheet' if reader.is_spreadsheet else 'spreadsheet'} in it")
    return reader.document


def no_entities(*_: object) -> None:
    raise NotASpreadsheet("the file declares entities, and no spreadsheet needs them")


class Reader:
    """Takes elements as they come, and keeps of them what is open and what a cell needs."""

    def __init__(self, document: Document) -> None:
        self.document = document
        self.open: list[str] = []
        self.elements = 0
        self.cells = 0
        self.is_spreadsheet = False
        self.sheet: Sheet | None = None
        self.names_of_sheets: set[str] = set()
        self.row = 1
        self.row_count = 1
        self.row_cells: list[tuple[int, int, Cell]] = []
        self.column = 1
        self.attributes: dict[str, str] = {}
        self.paragraphs: list[str] = []
        self.kept = 0
        self.depth_of_text = 0
        """How deep the paragraph of a cell is that is open, and 0 where none is."""

        self.passed_over = 0
        """How deep the element is whose text isn't that of the cell, and 0 where none is."""

    def start(self, name: str, attributes: dict[str, str]) -> None:
        parent = self.open[-1] if self.open else ""
        self.open.append(name)
        self.elements += 1
        if self.elements > MOST_ELEMENTS or len(self.open) > DEEPEST:
            raise NotASpreadsheet("the file has too many elements" if self.elements > MOST_ELEMENTS else "the file's elements are nested too deep")
        if self.depth_of_text:
            self.start_in_text(name, attributes)
        elif name == PARAGRAPH and parent in CELLS and self.sheet is not None:
            self.depth_of_text = len(self.open)
            self.paragraphs.append("")
        elif name in CELLS and parent == ROW:
            self.attributes, self.paragraphs, self.kept = attributes, [], 0
        elif name == ROW and parent in ROW_PARENTS:
            self.row_count, self.row_cells, self.column = repeated(attributes, "rows"), [], 1
        elif name == SHEET and parent == SPREADSHEET:
            self.start_sheet(attributes)
        elif parent == NAMES:
            self.take_name(name, attributes)
        elif name == SPREADSHEET:
            self.is_spreadsheet = True
        elif name == SETTINGS or parent == SETTINGS:
            self.take_setting(name.removeprefix(TABLE), attributes)

    def end(self, name: str) -> None:
        depth = len(self.open)
        self.open.pop()
        parent = self.open[-1] if self.open else ""
        if depth == self.passed_over:
            self.passed_over = 0
        if depth == self.depth_of_text:
            self.depth_of_text = 0
        elif self.depth_of_text == 0 and self.sheet is not None:
            if name in CELLS and parent == ROW:
                self.end_cell()
            elif name == ROW and parent in ROW_PARENTS:
                self.end_row()
            elif name == SHEET and parent == SPREADSHEET:
                self.sheet = None

    def start_sheet(self, attributes: dict[str, str]) -> None:
        name = attributes.get(TABLE + "name", "")
        self.sheet, self.row = Sheet(name), 1
        if name in self.names_of_sheets or len(self.names_of_sheets) == MOST_SHEETS:
            raise NotASpreadsheet(f"there are more than {MOST_SHEETS} sheets, or two of the name {name[:50]!r}")
        self.names_of_sheets.add(name)
        if not name.startswith(OTHER_FILE):
            self.document.sheets.append(self.sheet)

    # The text of a cell

    def text(self, text: str) -> None:
        if self.depth_of_text and not self.passed_over:
            self.keep(text)

    def keep(self, text: str) -> None:
        if self.kept <= LONGEST_KEPT:
            self.paragraphs[-1] += text[: LONGEST_KEPT + 1]
            self.kept += len(text)

    def start_in_text(self, name: str, attributes: dict[str, str]) -> None:
        """Spaces, tabs and line breaks are elements; what isn't of the text, such as a comment, is passed over."""
        if self.passed_over:
            return
        if name == TEXT + "s":
            spaces = attributes.get(TEXT + "c", "1")
            self.keep(" " * (0 if spaces == "0" else min(count_of(spaces), LONGEST_KEPT + 1)))
        elif name == TEXT + "tab":
            self.keep("\t")
        elif name == TEXT + "line-break":
            self.keep("\n")
        elif not name.startswith(TEXT):
            self.passed_over = len(self.open)

    # Cells and rows

    def end_cell(self) -> None:
        count = repeated(self.attributes, "columns")
        cell = self.cell()
        if cell is not None:
            if self.column + count - 1 > COLUMNS or self.row > ROWS:
                raise NotASpreadsheet(f"a cell lies outside of {COLUMNS} columns and {ROWS} rows")
            self.row_cells.append((self.column, count, cell))
        self.column += count

    def end_row(self) -> None:
        assert self.sheet is not None
        count = self.row_count * sum(columns for _, columns, _ in self.row_cells)
        self.cells += count
        if len(self.sheet.cells) + count > MOST_CELLS or self.cells > MOST_CELLS_IN_ALL:
            raise NotASpreadsheet(f"the sheet {self.sheet.name[:50]} has more than {MOST_CELLS} cells, or the file more than {MOST_CELLS_IN_ALL}")
        if self.row_cells and self.row + self.row_count - 1 > ROWS:
            raise NotASpreadsheet(f"a cell lies outside of {ROWS} rows")
        for at in range(self.row, self.row + self.row_count if self.row_cells else self.row):
            for column, columns, cell in self.row_cells:
                self.sheet.cells.update((Address(at, column + right), cell) for right in range(columns))
        self.row = min(self.row + self.row_count, ROWS + 1)

    def cell(self) -> Cell | None:
        get = self.attributes.get
        kind, formula = get(OFFICE + "value-type"), get(TABLE + "formula")
        if kind is None and formula is None:
            return None
        shown = "\n".join(self.paragraphs)
        if get(EXTENSION + "value-type") == "error":
            kind = "error"
        spans = [get(f"{TABLE}number-matrix-{of}-spanned") for of in ("rows", "columns")]
        array = (count_of(spans[0] or "1"), count_of(spans[1] or "1")) if any(spans) else None
        return Cell(kind or "string", self.value(kind or "string", shown), shown, formula, array, kind is not None)

    def value(self, kind: str, shown: str) -> str:
        get = self.attributes.get
        if kind in NUMBERS:
            return get(OFFICE + "value", "0")
        if kind in VALUE:
            return get(OFFICE + VALUE[kind], "")
        return shown if kind == "error" else get(OFFICE + "string-value", shown)

    # Names and settings

    def take_name(self, element: str, attributes: dict[str, str]) -> None:
        spelled = attributes.get(TABLE + "name", "")
        known = self.document.names if self.sheet is None else self.sheet.names
        if element == TABLE + "named-range":
            known[spelled.upper()] = Name(spelled, range=attributes.get(TABLE + "cell-range-address", ""))
        elif element == TABLE + "named-expression":
            known[spelled.upper()] = Name(spelled, expression=attributes.get(TABLE + "expression", ""))

    def take_setting(self, name: str, attributes: dict[str, str]) -> None:
        settings = self.document.settings

        def is_set(attribute: str, otherwise: bool = False) -> bool:
            return attributes.get(TABLE + attribute, str(otherwise).lower()) == "true"

        if name == "calculation-settings":
            settings.is_case_sensitive = is_set("case-sensitive", True)
            settings.is_precision_as_shown = is_set("precision-as-shown")
            settings.is_whole_cell = is_set("search-criteria-must-apply-to-whole-cell", True)
            settings.has_patterns = is_set("use-wildcards") or is_set("use-regular-expressions", True)
        elif name == "null-date":
            self.document.start_of_days = attributes.get(TABLE + "date-value", self.document.start_of_days)
        elif name == "iteration":
            settings.has_iterations = attributes.get(TABLE + "status") == "enable"


def repeated(attributes: dict[str, str], of: str) -> int:
    """How many rows or columns an element stands for; more than there can be count as one more than that."""
    return count_of(attributes.get(f"{TABLE}number-{of}-repeated", "1"))


def count_of(text: str) -> int:
    if re.fullmatch("[0-9]+", text) is None or not text.isascii() or text.strip("0") == "":
        raise NotASpreadsheet(f"a count is {text[:20]!r}")
    return int(text) if COUNT.fullmatch(text) else 10_000_000
