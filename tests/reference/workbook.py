"""The workbook of the reference: the sheet, scenarios, sessions and the log of edits, and what each command does to them.

A command first looks for the causes for which it is refused, in their order, and then changes the workbook.
"""

from collections.abc import Mapping
from dataclasses import dataclass, field
from fractions import Fraction

from tests.reference.csv_reader import records, row
from tests.reference.exact import Overflow, subtract
from tests.reference.grammar import COLUMNS, ROWS, Refused, column_letters, moved, parse, printed
from tests.reference.sheet import Cell, Content, Formula, Rectangle, Sheet, cells_of, size
from tests.reference.values import CIRCULAR, NUM, Value, imported, is_too_long, kind, same, shown

MOST_CELLS = 200_000
MOST_EDITS = 1_000_000_000
MOST_SCENARIOS = 64
MOST_REPLACEMENTS = 256
MOST_SESSIONS = 64
LARGEST_AREA = 65_536


@dataclass
class Scenario:
    own: dict[Cell, Value] = field(default_factory=dict)
    base: str | None = None


@dataclass
class Session:
    name: str
    scenario: str | None = None
    picture: dict[Cell, Value] = field(default_factory=dict)
    seen: int = 0


@dataclass(frozen=True)
class Edit:
    """An accepted edit: which session made it, and the rectangles that it named."""

    session: int
    named: tuple[Rectangle, ...]


def cell_text(cell: Cell) -> str:
    return column_letters(cell[1]) + str(cell[0] + 1)


def count_of(*rectangles: Rectangle) -> int:
    cells = 1
    for rectangle in rectangles:
        rows, columns = size(rectangle)
        cells *= rows * columns
    return cells


def refuse_if(holds: bool, code: str) -> None:
    if holds:
        raise Refused(code)


def content_of(text: str) -> Content:
    """What the content of `set` stands for."""
    if text.startswith(("=", "of:=")):
        return Formula(parse(text))
    value = text[1:] if text.startswith("'") else imported(text)
    refuse_if(is_too_long(value), "E08")
    return value


def copied(content: Content, down: int, right: int) -> Content:
    return Formula(moved(content.tree, down, right)) if isinstance(content, Formula) else content


def field_value(data: bytes) -> Value:
    """What a field stands for, however long it is; nothing where it is empty."""
    try:
        text = data.decode()
    except UnicodeDecodeError:
        raise Refused("E14") from None
    return imported(text) if text else None


def difference(left: Value, right: Value) -> str:
    if not (isinstance(left, Fraction) and isinstance(right, Fraction)):
        return ""
    try:
        return shown(subtract(right, left))
    except Overflow:
        return NUM.name


class Workbook:
    def __init__(self) -> None:
        self.sheet = Sheet({})
        self.edits = 0
        self.scenarios: dict[str, Scenario] = {}
        self.sessions = [Session("main")]
        self.current = 0
        self.log: list[Edit] = []

    # ---- scenarios and what is shown

    @property
    def session(self) -> Session:
        return self.sessions[self.current]

    def chain(self, name: str | None) -> list[str]:
        """A scenario, the one that it is based on, and so on."""
        names = []
        while name is not None:
            names.append(name)
            name = self.scenarios[name].base
        return names

    def effective(self, name: str | None) -> dict[Cell, Value]:
        put: dict[Cell, Value] = {}
        for scenario in reversed(self.chain(name)):
            put |= self.scenarios[scenario].own
        return put

    def shown_in(self, scenario: str | None, cell: Cell) -> Value:
        if self.sheet.circular(cell):
            return CIRCULAR
        return self.sheet.with_values(self.effective(scenario)).value(cell)

    def shown(self, cell: Cell) -> Value:
        return self.shown_in(self.session.scenario, cell)

    def texts(self, rectangle: Rectangle) -> list[str]:
        return [shown(self.shown(cell)) for cell in cells_of(rectangle)]

    def rows(self, rectangle: Rectangle) -> str:
        top, left, bottom, right = rectangle
        return "".join(row(self.texts((at, left, at, right))) for at in range(top, bottom + 1))

    # ---- edits

    def edit(self, force: bool, named: list[Rectangle], puts: Mapping[Cell, Content]) -> str:
        """Does an edit that names these cells, unless it is stale or goes beyond a limit."""
        stale = None if force else self.stale(named)
        refuse_if(stale is not None, f"E18 {cell_text(stale)}" if stale else "")
        contents: dict[Cell, Content] = {cell: content for cell, content in {**self.sheet.contents, **puts}.items() if content is not None}
        refuse_if(len(contents) > MOST_CELLS, "E09")
        refuse_if(self.edits >= MOST_EDITS, "E17")
        self.sheet = Sheet(contents)
        self.edits += 1
        self.log.append(Edit(self.current, tuple(named)))
        return ""

    def stale(self, named: list[Rectangle]) -> Cell | None:
        """The first of the cells that another session edited since this one was last told its changes."""
        shared = []
        for edit in self.log[self.session.seen :]:
            if edit.session != self.current:
                for top, left, bottom, right in edit.named:
                    for rectangle in named:
                        first = max(top, rectangle[0]), max(left, rectangle[1])
                        if first[0] <= min(bottom, rectangle[2]) and first[1] <= min(right, rectangle[3]):
                            shared.append(first)
        return min(shared, default=None)

    def set(self, force: bool, cell: Cell, text: str) -> str:
        content = content_of(text)
        return self.edit(force, [(*cell, *cell)], {cell: content})

    def clear(self, force: bool, rectangle: Rectangle) -> str:
        return self.edit(force, [rectangle], {cell: None for cell in self.sheet.occupied_in(rectangle)})

    def fill(self, force: bool, source: Cell, rectangle: Rectangle) -> str:
        refuse_if(count_of(rectangle) > LARGEST_AREA, "E15")
        content = self.sheet.contents.get(source)
        puts = {to: copied(content, to[0] - source[0], to[1] - source[1]) for to in cells_of(rectangle)}
        return self.edit(force, [rectangle], puts)

    def csv(self, force: bool, cell: Cell, data: bytes) -> str:
        fields = {
            (cell[0] + down, cell[1] + right): field_value(text)
            for down, record in enumerate(records(data))
            for right, text in enumerate(record)
        }
        refuse_if(any(is_too_long(value) for value in fields.values()), "E08")
        refuse_if(any(at[0] >= ROWS or at[1] >= COLUMNS for at in fields), "E04")
        ends = {at[0]: max(other[1] for other in fields if other[0] == at[0]) for at in fields}
        named = [(at, cell[1], at, end) for at, end in ends.items()]
        return self.edit(force, named, fields)

    # ---- scenarios

    def refuse_missing(self, *names: str | None) -> None:
        refuse_if(any(name is not None and name not in self.scenarios for name in names), "E10")

    def scenario(self, name: str, cell: Cell, text: str) -> str:
        if not text:
            self.refuse_missing(name)
            self.scenarios[name].own.pop(cell, None)
            return ""
        own = self.scenarios[name].own if name in self.scenarios else {}
        refuse_if(name not in self.scenarios and len(self.scenarios) >= MOST_SCENARIOS, "E11")
        refuse_if(cell not in own and len(own) >= MOST_REPLACEMENTS, "E11")
        value = imported(text)
        refuse_if(is_too_long(value), "E08")
        self.scenarios.setdefault(name, Scenario()).own[cell] = value
        return ""

    def drop(self, name: str) -> str:
        self.refuse_missing(name)
        used = any(session.scenario == name for session in self.sessions)
        refuse_if(used or any(scenario.base == name for scenario in self.scenarios.values()), "E12")
        del self.scenarios[name]
        return ""

    def base(self, name: str, other: str | None) -> str:
        self.refuse_missing(name, other)
        refuse_if(name in self.chain(other), "E19")
        self.scenarios[name].base = other
        return ""

    def use(self, name: str | None) -> str:
        self.refuse_missing(name)
        self.session.scenario = name
        return ""

    def as_session(self, name: str) -> str:
        names = [session.name for session in self.sessions]
        if name not in names:
            refuse_if(len(names) >= MOST_SESSIONS, "E11")
            self.sessions.append(Session(name))
            names.append(name)
        self.current = names.index(name)
        return ""

    # ---- looks

    def show(self, rectangle: Rectangle) -> str:
        refuse_if(count_of(rectangle) > LARGEST_AREA, "E15")
        return self.rows(rectangle)

    def export(self, rectangle: Rectangle) -> str:
        rows = self.show(rectangle)
        return f"lines {rows.count(chr(10))}\n{rows}"

    def changes(self) -> str:
        told = ""
        places = {*self.session.picture, *self.sheet.contents, *self.effective(self.session.scenario)}
        present = {cell: self.shown(cell) for cell in sorted(places)}
        for cell, value in present.items():
            if not same(value, self.session.picture.get(cell)):
                told += row([cell_text(cell), kind(value), shown(value)])
        self.session.picture = {cell: value for cell, value in present.items() if value is not None}
        self.session.seen = len(self.log)
        return told

    def compare(self, first: str | None, second: str | None, rectangle: Rectangle) -> str:
        refuse_if(count_of(rectangle) > LARGEST_AREA, "E15")
        self.refuse_missing(first, second)
        told = ""
        for cell in cells_of(rectangle):
            left, right = self.shown_in(first, cell), self.shown_in(second, cell)
            if not same(left, right):
                told += row([cell_text(cell), shown(left), shown(right), difference(left, right)])
        return told

    def entry(self, formula_cell: Cell, pairs: list[tuple[Cell, Cell]]) -> str:
        """An entry of a data table, as a formula in a cell of its own that nothing reads."""
        if any(self.sheet.circular(cell) for cell in [formula_cell, *(source for _, source in pairs)]):
            return shown(CIRCULAR)
        value = self.sheet.with_values(self.effective(self.session.scenario)).what_if(formula_cell, pairs)
        return shown(Fraction(0) if value is None else value)

    def table(self, formula_cell: Cell, input: Cell, column: Rectangle, second: tuple[Cell, Rectangle] | None) -> str:
        refuse_if(count_of(column, *([second[1]] if second else [])) > LARGEST_AREA, "E15")
        if second is None:
            return "".join(
                row([shown(self.shown(x)), self.entry(formula_cell, [(input, x)])]) for x in cells_of(column)
            )
        other, across = second
        told = row(["", *self.texts(across)])
        for x in cells_of(column):
            entries = [self.entry(formula_cell, [(input, x), (other, y)]) for y in cells_of(across)]
            told += row([shown(self.shown(x)), *entries])
        return told

    def formula(self, cell: Cell) -> str:
        content = self.sheet.contents.get(cell)
        match content:
            case Formula(tree):
                text = "=" + printed(tree)
            case str():
                text = "'" + content
            case _:
                text = shown(content)
        return row([cell_text(cell), text])
