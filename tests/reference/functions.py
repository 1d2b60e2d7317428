"""The meaning of a formula for the reference: operators and functions, one after another as the manual lists them."""

from collections.abc import Callable, Iterator
from fractions import Fraction

from tests.reference import exact
from tests.reference.grammar import Binary, Call, Number, Parenthesised, Percent, Reference, Signed, Text, Tree, WhatIf
from tests.reference.sheet import Cell, Rectangle, Sheet, size, what_if_of
from tests.reference.values import (
    HOLDS,
    NAME,
    NOT_AVAILABLE,
    REF,
    VALUE,
    Error,
    Fault,
    Value,
    bounded,
    calculated,
    compare,
    kind,
    logical,
    meets,
    number,
    raised,
    same,
    text,
    whole,
)


def result(sheet: Sheet, tree: Tree) -> Value:
    """The value of a formula: that of its tree, 0 for Empty."""
    value = meaning(sheet, tree)
    return Fraction(0) if value is None else value


def meaning(sheet: Sheet, tree: Tree) -> Value:
    try:
        return evaluated(sheet, tree)
    except Fault as fault:
        return fault.error


def evaluated(sheet: Sheet, tree: Tree) -> Value:
    match tree:
        case Number():
            return tree.value
        case Text():
            return tree.value
        case Reference():
            return scalar(sheet, tree.rectangle())
        case Parenthesised(inner):
            return evaluated(sheet, inner)
        case Signed("+", operand):
            return evaluated(sheet, operand)
        case Signed(_, operand):
            return -number(evaluated(sheet, operand))
        case Percent(operand):
            return calculated(exact.divide, number(evaluated(sheet, operand)), Fraction(100))
        case Binary(operator, left, right):
            return combined(sheet, operator, left, right)
        case WhatIf():
            return what_if_of(sheet, tree)
        case Call(name, arguments):
            return called(sheet, name, arguments)
    raise AssertionError(tree)


def scalar(sheet: Sheet, rectangle: Rectangle) -> Value:
    if size(rectangle) != (1, 1):
        raise Fault(VALUE)
    return sheet.value(rectangle[:2])


ARITHMETIC = {"+": exact.add, "-": exact.subtract, "*": exact.multiply, "/": exact.divide}


def combined(sheet: Sheet, operator: str, left: Tree, right: Tree) -> Value:
    if operator in ARITHMETIC:
        return calculated(ARITHMETIC[operator], number(evaluated(sheet, left)), number(evaluated(sheet, right)))
    if operator == "^":
        return raised(number(evaluated(sheet, left)), number(evaluated(sheet, right)))
    if operator == "&":
        return bounded(text(evaluated(sheet, left)) + text(evaluated(sheet, right)))
    return HOLDS[operator](compare(no_error(evaluated(sheet, left)), no_error(evaluated(sheet, right))))


def no_error(value: Value) -> Value:
    if isinstance(value, Error):
        raise Fault(value)
    return value


# ---- arguments


class Arguments:
    """The arguments of a call, valued one by one."""

    def __init__(self, sheet: Sheet, trees: tuple[Tree, ...]) -> None:
        self.sheet = sheet
        self.trees = trees

    def __len__(self) -> int:
        return len(self.trees)

    def value(self, place: int) -> Value:
        """An argument of any kind; its error counts for what it is."""
        return meaning(self.sheet, self.trees[place])

    def no_error(self, place: int) -> Value:
        return no_error(self.value(place))

    def number(self, place: int, missing: Fraction | None = None) -> Fraction:
        return missing if missing is not None and place >= len(self) else number(self.value(place))

    def whole(self, place: int, missing: int | None = None) -> int:
        return missing if missing is not None and place >= len(self) else whole(self.value(place))

    def text(self, place: int) -> str:
        return text(self.value(place))

    def logical(self, place: int, missing: bool | None = None) -> bool:
        return missing if missing is not None and place >= len(self) else logical(self.value(place))

    def rectangle_or_none(self, place: int) -> Rectangle | None:
        tree = self.trees[place]
        while isinstance(tree, Parenthesised):
            tree = tree.inner
        return tree.rectangle() if isinstance(tree, Reference) else None

    def rectangle(self, place: int) -> Rectangle:
        rectangle = self.rectangle_or_none(place)
        if rectangle is None:
            raise Fault(VALUE)
        return rectangle

    def items(self) -> Iterator[tuple[bool, Value]]:
        """What a sequence has: whether it is of a cell, and the value. Empty cells count in no function, and are left out."""
        for place in range(len(self)):
            rectangle = self.rectangle_or_none(place)
            if rectangle is None:
                yield False, self.value(place)
            else:
                for cell in self.sheet.occupied_in(rectangle):
                    yield True, self.sheet.value(cell)

    def numbers(self) -> Iterator[Fraction]:
        """The numbers of a number fold."""
        for is_cell, value in self.items():
            if not is_cell or isinstance(no_error(value), Fraction):
                yield number(value)


# ---- functions

Function = Callable[[Arguments], Value]
FUNCTIONS: dict[str, tuple[int, int, Function]] = {}
ANY = 10_000


def function(name: str, least: int, most: int | None = None) -> Callable[[Function], Function]:
    """Puts a function under its name, with the least and the most number of arguments."""

    def put(body: Function) -> Function:
        FUNCTIONS[name] = (least, least if most is None else most, body)
        return body

    return put


def called(sheet: Sheet, name: str, trees: tuple[Tree, ...]) -> Value:
    if name not in FUNCTIONS:
        raise Fault(NAME)
    least, most, body = FUNCTIONS[name]
    if not least <= len(trees) <= most:
        raise Fault(VALUE)
    return body(Arguments(sheet, trees))


function("ABS", 1)(lambda a: abs(a.number(0)))
function("SIGN", 1)(lambda a: Fraction(compare(a.number(0), Fraction(0))))
function("INT", 1)(lambda a: Fraction(a.number(0).__floor__()))


def rounding(how: Callable[[Fraction], int]) -> Function:
    def body(a: Arguments) -> Value:
        x = a.number(0)
        return calculated(exact.round_to, x, a.whole(1, 0), how)

    return body


function("ROUND", 1, 2)(rounding(exact.half_away))
function("ROUNDUP", 1, 2)(rounding(exact.away))
function("ROUNDDOWN", 1, 2)(rounding(exact.truncate))
function("TRUNC", 1, 2)(rounding(exact.truncate))


@function("QUOTIENT", 2)
def quotient(a: Arguments) -> Value:
    return Fraction(exact.truncate(calculated(exact.divide, a.number(0), a.number(1))))


@function("MOD", 2)
def modulo(a: Arguments) -> Value:
    x, y = a.number(0), a.number(1)
    times = Fraction(calculated(exact.divide, x, y).__floor__())
    return calculated(exact.subtract, x, calculated(exact.multiply, y, times))


function("POWER", 2)(lambda a: raised(a.number(0), a.number(1)))


def folded(a: Arguments, operation: Callable[[Fraction, Fraction], Fraction], first: Fraction) -> Fraction:
    total = first
    for x in a.numbers():
        total = calculated(operation, total, x)
    return total


function("SUM", 1, ANY)(lambda a: folded(a, exact.add, Fraction(0)))
function("PRODUCT", 1, ANY)(lambda a: folded(a, exact.multiply, Fraction(1)))
function("MIN", 1, ANY)(lambda a: min(a.numbers(), default=Fraction(0)))
function("MAX", 1, ANY)(lambda a: max(a.numbers(), default=Fraction(0)))


@function("AVERAGE", 1, ANY)
def average(a: Arguments) -> Value:
    total, count = Fraction(0), 0
    for x in a.numbers():
        total, count = calculated(exact.add, total, x), count + 1
    return calculated(exact.divide, total, Fraction(count))


function("COUNT", 1, ANY)(lambda a: Fraction(sum(kind(value) == "N" for _, value in a.items())))
function("COUNTA", 1, ANY)(lambda a: Fraction(sum(value is not None for _, value in a.items())))


def truths(a: Arguments) -> list[bool]:
    """The truth values that AND and OR look at."""
    found = [logical(value) for is_cell, value in a.items() if not is_cell or kind(no_error(value)) in "NL"]
    if not found:
        raise Fault(VALUE)
    return found


function("AND", 1, ANY)(lambda a: all(truths(a)))
function("OR", 1, ANY)(lambda a: any(truths(a)))


@function("SUMPRODUCT", 1, ANY)
def sum_product(a: Arguments) -> Value:
    rectangles = [a.rectangle(place) for place in range(len(a))]
    if len({size(rectangle) for rectangle in rectangles}) > 1:
        raise Fault(VALUE)
    total = Fraction(0)
    places = {(c[0] - r[0], c[1] - r[1]) for r in rectangles for c in a.sheet.occupied_in(r)}
    for down, right in sorted(places):
        product = Fraction(1)
        for top, left, _, _ in rectangles:
            value = no_error(a.sheet.value((top + down, left + right)))
            product = calculated(exact.multiply, product, value if isinstance(value, Fraction) else Fraction(0))
        total = calculated(exact.add, total, product)
    return total


def meeting(a: Arguments, rectangle: Rectangle, criterion: Value) -> list[Cell]:
    return [cell for cell in a.sheet.occupied_in(rectangle) if meets(a.sheet.value(cell), criterion)]


@function("COUNTIF", 2)
def count_if(a: Arguments) -> Value:
    rectangle = a.rectangle(0)
    return Fraction(len(meeting(a, rectangle, a.no_error(1))))


@function("SUMIF", 2, 3)
def sum_if(a: Arguments) -> Value:
    region, criterion = a.rectangle(0), a.no_error(1)
    summed = a.rectangle(2) if len(a) == 3 else region
    if size(region) != size(summed):
        raise Fault(VALUE)
    total = Fraction(0)
    for row, column in meeting(a, region, criterion):
        value = no_error(a.sheet.value((summed[0] + row - region[0], summed[1] + column - region[1])))
        if isinstance(value, Fraction):
            total = calculated(exact.add, total, value)
    return total


function("TRUE", 0)(lambda a: True)
function("FALSE", 0)(lambda a: False)
function("NA", 0)(lambda a: NOT_AVAILABLE)
function("NOT", 1)(lambda a: not a.logical(0))


@function("IF", 1, 3)
def if_value(a: Arguments) -> Value:
    place = 1 if a.logical(0) else 2
    return a.value(place) if place < len(a) else place == 1


@function("IFERROR", 2)
def if_error(a: Arguments) -> Value:
    first = a.value(0)
    return a.value(1) if isinstance(first, Error) else first


@function("IFNA", 2)
def if_not_available(a: Arguments) -> Value:
    first = a.value(0)
    return a.value(1) if first == NOT_AVAILABLE else first


@function("CHOOSE", 2, ANY)
def choose(a: Arguments) -> Value:
    place = a.whole(0)
    if not 1 <= place < len(a):
        raise Fault(VALUE)
    return a.value(place)


function("ISBLANK", 1)(lambda a: a.value(0) is None)
function("ISNUMBER", 1)(lambda a: kind(a.value(0)) == "N")
function("ISTEXT", 1)(lambda a: kind(a.value(0)) == "T")
function("ISLOGICAL", 1)(lambda a: kind(a.value(0)) == "L")
function("ISNONTEXT", 1)(lambda a: kind(a.value(0)) != "T")
function("ISERROR", 1)(lambda a: kind(a.value(0)) == "E")
function("ISNA", 1)(lambda a: a.value(0) == NOT_AVAILABLE)


@function("ISERR", 1)
def is_other_error(a: Arguments) -> Value:
    value = a.value(0)
    return isinstance(value, Error) and value != NOT_AVAILABLE


@function("VALUE", 1)
def value_of_text(a: Arguments) -> Value:
    value = a.no_error(0)
    if isinstance(value, str):
        value = exact.read(value)
    if not isinstance(value, Fraction):
        raise Fault(VALUE)
    return value


# ---- look-ups


def position(a: Arguments, sought: Value, rectangle: Rectangle, order: Fraction) -> int:
    """The place of what is sought, counted from 0, in a region with one row or one column."""
    if 1 not in size(rectangle):
        raise Fault(VALUE)
    sought = Fraction(0) if sought is None else sought
    found = None
    for cell in a.sheet.occupied_in(rectangle):
        value = a.sheet.value(cell)
        if kind(value) != kind(sought):
            continue
        if order == 0 and same(value, sought):
            found = cell
            break
        if order > 0 and compare(value, sought) <= 0 or order < 0 and compare(value, sought) >= 0:
            found = cell
    if found is None:
        raise Fault(NOT_AVAILABLE)
    return found[0] - rectangle[0] + found[1] - rectangle[1]


@function("MATCH", 2, 3)
def match(a: Arguments) -> Value:
    sought, rectangle = a.no_error(0), a.rectangle(1)
    return Fraction(position(a, sought, rectangle, a.number(2, Fraction(1))) + 1)


@function("INDEX", 2, 3)
def index(a: Arguments) -> Value:
    rectangle = a.rectangle(0)
    rows, columns = size(rectangle)
    places = [a.whole(place) for place in range(1, len(a))]
    if len(places) == 1:
        if 1 not in (rows, columns):
            raise Fault(VALUE)
        places = [places[0], 1] if columns == 1 else [1, places[0]]
    if min(places) < 1:
        raise Fault(VALUE)
    if places[0] > rows or places[1] > columns:
        raise Fault(REF)
    return a.sheet.value((rectangle[0] + places[0] - 1, rectangle[1] + places[1] - 1))


def looked_up(a: Arguments, by_rows: bool) -> Value:
    sought, (top, left, bottom, right), place = a.no_error(0), a.rectangle(1), a.whole(2)
    order = Fraction(1 if a.logical(3, True) else 0)
    if place < 1:
        raise Fault(VALUE)
    if place > (bottom - top if by_rows else right - left) + 1:
        raise Fault(REF)
    first = (top, left, top, right) if by_rows else (top, left, bottom, left)
    along = position(a, sought, first, order)
    return a.sheet.value((top + place - 1, left + along) if by_rows else (top + along, left + place - 1))


function("VLOOKUP", 3, 4)(lambda a: looked_up(a, False))
function("HLOOKUP", 3, 4)(lambda a: looked_up(a, True))

# ---- texts

function("LEN", 1)(lambda a: Fraction(len(a.text(0))))


def not_below(least: int, *counts: int) -> None:
    if min(counts) < least:
        raise Fault(VALUE)


@function("LEFT", 1, 2)
def left_part(a: Arguments) -> Value:
    whole_text, count = a.text(0), a.whole(1, 1)
    not_below(0, count)
    return whole_text[:count]


@function("RIGHT", 1, 2)
def right_part(a: Arguments) -> Value:
    whole_text, count = a.text(0), a.whole(1, 1)
    not_below(0, count)
    return whole_text[max(len(whole_text) - count, 0) :]


@function("MID", 3)
def middle(a: Arguments) -> Value:
    whole_text, place, count = a.text(0), a.whole(1), a.whole(2)
    not_below(1, place)
    not_below(0, count)
    return whole_text[place - 1 : place - 1 + count]


function("CONCATENATE", 1, ANY)(lambda a: bounded("".join([a.text(place) for place in range(len(a))])))


@function("EXACT", 2)
def exactly(a: Arguments) -> Value:
    first = a.text(0)
    return first == a.text(1)


@function("FIND", 2, 3)
def find(a: Arguments) -> Value:
    sought, whole_text, place = a.text(0), a.text(1), a.whole(2, 1)
    if not 1 <= place <= len(whole_text) + 1 or whole_text.find(sought, place - 1) < 0:
        raise Fault(VALUE)
    return Fraction(whole_text.find(sought, place - 1) + 1)


@function("REPT", 2)
def repeated(a: Arguments) -> Value:
    part, count = a.text(0), a.whole(1)
    not_below(0, count)
    return bounded(part * min(count, 40_000 // max(1, len(part)) + 1))
