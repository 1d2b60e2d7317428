"""Wrong references: each has one mistake that is easily made, planted into the reference for a while."""

from collections.abc import Callable, Iterable, Iterator, Mapping
from contextlib import AbstractContextManager, ExitStack, contextmanager
from fractions import Fraction
from unittest import mock

from tests.reference import csv_reader, exact, functions, values, workbook
from tests.reference.grammar import reads
from tests.reference.sheet import Cell, Content, Formula, Rectangle, Sheet, cells_of, is_within, size
from tests.reference.values import Value
from tests.reference.workbook import Workbook

Planted = AbstractContextManager[object]


def in_functions(name: str, replace: Callable[[functions.Function], functions.Function]) -> Planted:
    """A function of formulas, replaced."""
    least, most, body = functions.FUNCTIONS[name]
    return mock.patch.dict(functions.FUNCTIONS, {name: (least, most, replace(body))})


@contextmanager
def all_of(*planted: Planted) -> Iterator[None]:
    with ExitStack() as stack:
        for one in planted:
            stack.enter_context(one)
        yield


# ---- values over edits, cycles and what-ifs


def stale_value_after_an_edit() -> Planted:
    """An edit raises the formulas that read the edited cells themselves, and not those further on."""
    edit = Workbook.edit

    def edited(book: Workbook, force: bool, named: list[Rectangle], puts: Mapping[Cell, Content]) -> str:
        before = book.sheet
        edit(book, force, named, puts)
        for old in before.copies.values():
            new = book.sheet.with_values(old.put)
            for cell, value in old.known.items():
                content = new.contents.get(cell)
                if isinstance(content, Formula) and content is old.contents.get(cell) and not reads_one_of(content, puts):
                    new.known[cell] = value
        return ""

    return mock.patch.object(Workbook, "edit", edited)


def reads_one_of(formula: Formula, cells: Iterable[Cell]) -> bool:
    return any(is_within(cell, rectangle) for rectangle in reads(formula.tree) for cell in cells)


def circular_only_on_a_cycle() -> Planted:
    """What only reads a cycle isn't taken to be circular."""

    def find(sheet: Sheet) -> set[Cell]:
        formulas = [cell for cell, content in sheet.contents.items() if isinstance(content, Formula)]
        return {cell for cell in formulas if comes_back(sheet, cell)}

    return mock.patch.object(Sheet, "find_circular", find)


def comes_back(sheet: Sheet, cell: Cell) -> bool:
    found: set[Cell] = set()
    left = [cell]
    while left:
        for read in sheet.formulas_read(left.pop()):
            if read not in found:
                found.add(read)
                left.append(read)
    return cell in found


def empty_value_is_forgotten() -> Planted:
    """An Empty value doesn't empty the input."""

    def what_if(sheet: Sheet, cell: Cell, pairs: list[tuple[Cell, Cell]]) -> Value:
        put = {at: sheet.value(source) for at, source in pairs}
        return sheet.with_values({at: value for at, value in put.items() if value is not None}).value(cell)

    return mock.patch.object(Sheet, "what_if", what_if)


def second_value_after_the_first_put() -> Planted:
    def what_if(sheet: Sheet, cell: Cell, pairs: list[tuple[Cell, Cell]]) -> Value:
        for at, source in pairs:
            sheet = sheet.with_values({at: sheet.value(source)})
        return sheet.value(cell)

    return mock.patch.object(Sheet, "what_if", what_if)


def scenario_cuts_a_cycle() -> Planted:
    def shown_in(book: Workbook, scenario: str | None, cell: Cell) -> Value:
        return book.sheet.with_values(book.effective(scenario)).value(cell)

    return mock.patch.object(Workbook, "shown_in", shown_in)


# ---- scenarios and sessions


def base_overrides_own() -> Planted:
    def effective(book: Workbook, name: str | None) -> dict[Cell, Value]:
        put: dict[Cell, Value] = {}
        for scenario in book.chain(name):
            put |= book.scenarios[scenario].own
        return put

    return mock.patch.object(Workbook, "effective", effective)


def own_edits_are_stale() -> Planted:
    stale = Workbook.stale

    def own_too(book: Workbook, named: list[Rectangle]) -> Cell | None:
        current, book.current = book.current, -1
        try:
            book.sessions.append(book.sessions[current])
            return stale(book, named)
        finally:
            book.sessions.pop()
            book.current = current

    return mock.patch.object(Workbook, "stale", own_too)


def changes_compare_texts() -> Planted:
    changes = Workbook.changes

    def by_text(book: Workbook) -> str:
        with mock.patch.object(workbook, "same", lambda left, right: values.shown(left) == values.shown(right)):
            return changes(book)

    return mock.patch.object(Workbook, "changes", by_text)


# ---- functions


def half_to_even(x: Fraction) -> int:
    return round(x)


def rounds_half_to_even() -> Planted:
    return in_functions("ROUND", lambda body: functions.rounding(half_to_even))


def match_takes_less_alone() -> Planted:
    position = functions.position

    def less_alone(a: functions.Arguments, sought: Value, rectangle: Rectangle, order: Fraction) -> int:
        def compared(left: Value, right: Value) -> int:
            found = values.compare(left, right)
            return 1 if found == 0 and order > 0 else found

        with mock.patch.object(functions, "compare", compared):
            return position(a, sought, rectangle, order)

    return mock.patch.object(functions, "position", less_alone)


def empty_cells_are_unequal() -> Planted:
    """An Empty cell meets a criterion of `<>`."""

    def meeting(a: functions.Arguments, rectangle: Rectangle, criterion: Value) -> list[Cell]:
        rows, columns = size(rectangle)
        cells = cells_of(rectangle) if rows * columns < 1_000 else a.sheet.occupied_in(rectangle)
        return [cell for cell in cells if meets(a.sheet.value(cell), criterion)]

    def meets(cell: Value, criterion: Value) -> bool:
        if cell is None:
            return isinstance(criterion, str) and criterion.startswith("<>")
        return values.meets(cell, criterion)

    return mock.patch.object(functions, "meeting", meeting)


def percent_is_an_unreduced_product() -> Planted:
    """A hundredth is a product whose parts have to fit before they are reduced."""

    def divide(x: Fraction, y: Fraction) -> Fraction:
        if y == 100 and x.denominator * 100 > exact.MAX:
            raise exact.Overflow
        return divided(x, y)

    divided = exact.divide
    return mock.patch.object(exact, "divide", divide)


# ---- tables in


def text_behind_a_quote_is_dropped() -> Planted:
    def field(reader: csv_reader.Reader) -> bytes:
        quoted = reader.quoted() if reader.data[reader.at : reader.at + 1] == b'"' else None
        start = reader.at
        while reader.at < len(reader.data) and reader.data[reader.at] not in b",\r\n":
            reader.at += 1
        return reader.data[start : reader.at] if quoted is None else quoted

    return mock.patch.object(csv_reader.Reader, "field", field)


PLANTED: dict[str, Callable[[], Planted]] = {
    "an edit raises direct readers alone": stale_value_after_an_edit,
    "circular only on a cycle": circular_only_on_a_cycle,
    "ROUND takes halves to the even number": rounds_half_to_even,
    "an Empty value doesn't empty the input": empty_value_is_forgotten,
    "Y's value is taken after the first put": second_value_after_the_first_put,
    "a scenario cuts a cycle": scenario_cuts_a_cycle,
    "a session's own edits are in its way": own_edits_are_stale,
    "changes compare shown texts alone": changes_compare_texts,
    "MATCH takes what is less alone": match_takes_less_alone,
    "Empty meets the criterion <>": empty_cells_are_unequal,
    "a percent is a product that isn't reduced": percent_is_an_unreduced_product,
    "what follows a closing quote is dropped": text_behind_a_quote_is_dropped,
    "a base scenario overrides a scenario's own": base_overrides_own,
}
