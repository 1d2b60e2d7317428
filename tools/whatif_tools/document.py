"""What a spreadsheet's file has in its cells: values, texts and formulas as they are saved."""

from dataclasses import dataclass, field

from .sheet import Address

NUMBERS = ("float", "percentage", "currency")
START_OF_DAYS = "1899-12-30"


@dataclass(frozen=True)
class Cell:
    """A cell as it is saved; the value is the file's text for it."""

    kind: str
    value: str
    shown: str
    formula: str | None = None
    array: tuple[int, int] | None = None
    """How many rows and columns the array formula covers that begins here."""

    has_value: bool = True
    """Whether a value is saved with it."""

    @property
    def is_error(self) -> bool:
        return self.kind == "error"


@dataclass(frozen=True)
class Name:
    """What a name stands for: a range, or an expression."""

    spelled: str
    range: str | None = None
    expression: str | None = None


@dataclass
class Sheet:
    name: str
    cells: dict[Address, Cell] = field(default_factory=dict)
    names: dict[str, Name] = field(default_factory=dict)
    """Its own names, in capitals."""

    def width(self) -> int:
        return max((address.column for address in self.cells), default=0)

    def height(self) -> int:
        return max((address.row for address in self.cells), default=0)


@dataclass
class Settings:
    """The settings of a document that change values."""

    has_iterations: bool = False
    is_precision_as_shown: bool = False
    is_whole_cell: bool = True
    has_patterns: bool = False
    """Whether `*` and `?`, or regular expressions, are patterns in criteria."""

    is_case_sensitive: bool = True


@dataclass
class Document:
    sheets: list[Sheet]
    names: dict[str, Name]
    start_of_days: str = START_OF_DAYS
    settings: Settings = field(default_factory=Settings)

    def sheet(self, name: str) -> Sheet | None:
        return next((sheet for sheet in self.sheets if sheet.name == name), None)
