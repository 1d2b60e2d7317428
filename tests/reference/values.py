"""Values of the reference: Empty is None, a Number a Fraction, a Text a str, a Logical a bool, an error an Error."""

from collections.abc import Callable
from dataclasses import dataclass
from fractions import Fraction
from typing import Any

from tests.reference import exact

LONGEST_TEXT = 32_767


@dataclass(frozen=True)
class Error:
    name: str


NOT_AVAILABLE = Error("#N/A")
DIVISION = Error("#DIV/0!")
NAME = Error("#NAME?")
NUM = Error("#NUM!")
REF = Error("#REF!")
VALUE = Error("#VALUE!")
CIRCULAR = Error("#CIRC!")

Value = None | Fraction | str | bool | Error


class Fault(Exception):
    """The first error that is met is the result."""

    def __init__(self, error: Error) -> None:
        self.error = error


def kind(value: Value) -> str:
    """The kind as `changes` names it."""
    if value is None:
        return "-"
    return {bool: "L", Fraction: "N", str: "T", Error: "E"}[type(value)]


def same(left: Value, right: Value) -> bool:
    return kind(left) == kind(right) and left == right


def shown(value: Value) -> str:
    match value:
        case None:
            return ""
        case bool():
            return "TRUE" if value else "FALSE"
        case Fraction():
            return exact.shown(value)
        case Error(name):
            return name
    return value


def imported(text: str) -> Value:
    """The value that a field, a replacement or a criterion's operand stands for, of any length."""
    number = exact.read(text)
    if number is not None:
        return number
    return {"TRUE": True, "FALSE": False}.get(text, text)


def is_too_long(value: Value) -> bool:
    return isinstance(value, str) and len(value.encode()) > LONGEST_TEXT


# ---- conversions


def number(value: Value) -> Fraction:
    match value:
        case Error():
            raise Fault(value)
        case str():
            raise Fault(VALUE)
        case None:
            return Fraction(0)
    return Fraction(value)


def text(value: Value) -> str:
    if isinstance(value, Error):
        raise Fault(value)
    return shown(value)


def logical(value: Value) -> bool:
    match value:
        case Error():
            raise Fault(value)
        case str():
            raise Fault(VALUE)
    return bool(value)


def whole(value: Value) -> int:
    return exact.truncate(number(value))


def calculated(operation: Callable[..., Fraction], *operands: object) -> Fraction:
    """The result of an operation on numbers, or its error."""
    try:
        return operation(*operands)
    except exact.Overflow:
        raise Fault(NUM) from None
    except exact.ZeroDenominator:
        raise Fault(DIVISION) from None


def raised(base: Fraction, exponent: Fraction) -> Fraction:
    if exponent.denominator != 1:
        raise Fault(NUM)
    return calculated(exact.power, base, exponent.numerator)


def bounded(result: str) -> str:
    if is_too_long(result):
        raise Fault(VALUE)
    return result


# ---- order

RANK = {"N": 0, "T": 1, "L": 2}


def key(value: Value) -> Any:
    """What values of one kind are ordered by."""
    return value.encode() if isinstance(value, str) else value


def compare(left: Value, right: Value) -> int:
    """-1, 0 or 1 for two values that aren't errors. An Empty one becomes what the other needs."""
    if left is None and right is None:
        return 0
    blank: dict[str, Value] = {"N": Fraction(0), "T": "", "L": False}
    left = blank[kind(right)] if left is None else left
    right = blank[kind(left)] if right is None else right
    if kind(left) != kind(right):
        return -1 if RANK[kind(left)] < RANK[kind(right)] else 1
    return int(key(left) > key(right)) - int(key(left) < key(right))


HOLDS: dict[str, Callable[[int], bool]] = {
    "=": lambda order: order == 0,
    "<>": lambda order: order != 0,
    "<": lambda order: order < 0,
    "<=": lambda order: order <= 0,
    ">": lambda order: order > 0,
    ">=": lambda order: order >= 0,
}


def meets(cell: Value, criterion: Value) -> bool:
    """Whether a cell meets a criterion, which is no error."""
    operator = "="
    operand: Value = Fraction(0) if criterion is None else criterion
    if isinstance(criterion, str):
        operator = next((o for o in ("<>", "<=", ">=", "=", "<", ">") if criterion.startswith(o)), "")
        operand = imported(criterion[len(operator) :])
        operator = operator or "="
    if cell is None or isinstance(cell, Error):
        return False
    if kind(cell) != kind(operand):
        return operator == "<>"
    return HOLDS[operator](compare(cell, operand))
