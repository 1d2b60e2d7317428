"""Functions that whatif lacks, said otherwise: each only where the meaning is the same for every input."""

from datetime import date, timedelta

from .conditions import CONDITIONS, is_unequal
from .constants import exact, since
from .helpers import rectangle_of
from .loans import LOANS
from .move import referred
from .parameters import NO_VALUE, is_literal, is_positive, one_value, operand, range_of, shape, trimmed
from .pieces import REFERENCE, Call, CannotGoOver, Piece
from .products import PRODUCTS
from .ranks import RANKS
from .translate import Rule, Translator

LAST_YEAR = 9956
PI = "3.14159265358979"


def choices(book: Translator, call: Call) -> str:
    """IFS: the value behind the first condition that holds."""
    one_value(book, call, 2, 254)
    parts = [book.text(parameter).strip() for parameter in call.parameters]
    if len(parts) % 2:
        raise CannotGoOver("IFS with a condition that has no value")
    said = "NA()"
    for condition, value in reversed(list(zip(parts[::2], parts[1::2]))):
        said = f"IF({condition};{value};{said})"
    return said


def switch(book: Translator, call: Call) -> str:
    """SWITCH: the value behind the first that is equal, else the last one."""
    value, *others = one_value(book, call, 3, 254)
    results = [book.text(parameter).strip() for parameter in call.parameters[1:]]
    said = results.pop() if len(results) % 2 else "NA()"
    are_plain = [is_literal(parameter) for parameter in call.parameters[1::2]][: len(results) // 2]
    for other, then, is_plain in reversed(list(zip(others[::2], results[1::2], are_plain))):
        is_equal = f"{value}={other}" if is_plain else f"IFERROR({value}={other};FALSE())"
        said = f"IF({is_equal};{then};{said})"
    return said if all(are_plain) else f"IF(ISERROR({value});{value};{said})"


def x_lookup(book: Translator, call: Call) -> str:
    """XLOOKUP of a value that is found exactly, from the first on, in a row or a column beside one of the same size."""
    parts = [book.text(parameter).strip() for parameter in call.parameters]
    if not 3 <= len(parts) <= 6 or any(part not in ("", other) for part, other in zip(parts[4:], ("0", "1"))):
        raise CannotGoOver("XLOOKUP other than exact from the first on")
    searched, returned = (range_of(parameter, book) for parameter in call.parameters[1:3])
    if searched is None or returned is None or shape(searched) != shape(returned) or 1 not in shape(searched):
        raise CannotGoOver("XLOOKUP in ranges that aren't two rows or two columns of one size")
    if len(trimmed(call.parameters[0])) == 1 and range_of(call.parameters[0], book) is not None and ":" in parts[0]:
        raise CannotGoOver("XLOOKUP of several cells")
    found = f"MATCH({parts[0]};{searched};0)"
    if len(parts) < 4 or not parts[3]:
        return f"INDEX({returned};{found})"
    value = operand(book, call.parameters[0])
    return f"IF(ISNA({found});IF(ISNA({value});{value};{parts[3]});INDEX({returned};{found}))"


def count_of(which: int) -> Rule:
    """ROWS or COLUMNS: how many a reference has."""

    def rule(book: Translator, call: Call) -> str:
        text = range_of(call.parameters[0], book) if len(call.parameters) == 1 else None
        if text is None:
            raise CannotGoOver(f"{call.name} of what is no reference")
        return str(shape(text)[which])

    return rule


def place_of(is_row: bool) -> Rule:
    """ROW or COLUMN: where the cell is, or the one that is referred to."""

    def rule(book: Translator, call: Call) -> str:
        if not call.parameters:
            return str(book.cell.row if is_row else book.cell.column)
        only = trimmed(call.parameters[0])
        if len(call.parameters) != 1 or len(only) != 1 or not isinstance(only[0], Piece) or only[0].kind != REFERENCE:
            raise CannotGoOver(f"{call.name} of what is no cell")
        found = referred(only[0].text, book.sheet, 1)
        if not found.is_cell:
            raise CannotGoOver(f"{call.name} of several cells")
        place = rectangle_of(f".{found.first}").first
        return str(place.row if is_row else place.column)

    return rule


def round_to(up: bool) -> Rule:
    """CEILING or FLOOR of the standard: toward a multiple of the second parameter, which must have the same sign."""

    def rule(book: Translator, call: Call) -> str:
        number, *rest = one_value(book, call, 1, 2)
        if not rest:
            return f"(-INT(-{number}))" if up else f"INT({number})"
        step = rest[0]
        above, below = ("ROUNDUP", "ROUNDDOWN") if up else ("ROUNDDOWN", "ROUNDUP")
        if is_positive(call.parameters[1]):
            return f"IF({number}<0;{NO_VALUE};{above}({number}/{step})*{step})"
        inner = f"IF({number}<0;{below}({number}/{step})*{step};{above}({number}/{step})*{step})"
        return f"IF({number}*{step}<0;{NO_VALUE};IF({step}=0;0;{inner}))"

    return rule


def round_to_as_excel(up: bool) -> Rule:
    """CEILING, CEILING.MATH and their like of Excel, by a step that is a positive number: up or down, below 0 too."""

    def rule(book: Translator, call: Call) -> str:
        number, step, mode = [*one_value(book, call, 1, 3), "1", "0"][:3] if len(call.parameters) != 2 else [*one_value(book, call, 2, 2), "0"]
        if mode != "0" or len(call.parameters) > 1 and not is_positive(call.parameters[1]):
            raise CannotGoOver(f"{call.name} by a step that is no positive number, or away from 0")
        return f"(-INT(-{number}/{step})*{step})" if up else f"(INT({number}/{step})*{step})"

    return rule


def parity(rest: int) -> Rule:
    def rule(book: Translator, call: Call) -> str:
        value = one_value(book, call, 1, 1)[0]
        said = f"MOD(TRUNC({value});2)={rest}"
        return f"({said})" if range_of(call.parameters[0], book) is None else f"IF(ISBLANK({value});{NO_VALUE};{said})"

    return rule


def day(book: Translator, call: Call) -> str:
    """DATE of three whole numbers: the days since the first day of the file."""
    parts = one_value(book, call, 3, 3)
    if not all(part.isdigit() and len(part) < 6 for part in parts):
        raise CannotGoOver("DATE of what isn't three whole numbers")
    year, month, days = map(int, parts)
    year, month = year + (month - 1) // 12, (month - 1) % 12 + 1
    if not 1900 <= int(parts[0]) or not 1900 <= year <= LAST_YEAR:
        raise CannotGoOver("DATE of a year before 1900 or after 9956")
    found = date(year, month, 1) + timedelta(days=days - 1)
    return exact(since(book.places.document.start_of_days, found.isoformat()))


def blanks(book: Translator, call: Call) -> str:
    """COUNTBLANK: cells that are empty, or whose text is."""
    text = range_of(call.parameters[0], book) if len(call.parameters) == 1 else None
    if text is None:
        raise CannotGoOver("COUNTBLANK of what is no reference")
    rows, columns = shape(text)
    return f'({rows * columns}-COUNTA({text})+COUNTIF({text};""))'


def squares(book: Translator, call: Call) -> str:
    text = range_of(call.parameters[0], book) if len(call.parameters) == 1 else None
    if text is None:
        raise CannotGoOver("SUMSQ of what isn't one range")
    return f"SUMPRODUCT({text};{text})"


def if_unequal(function: str) -> Rule:
    """COUNTIF or SUMIF of what isn't something, by help: there an empty cell, and an error, meets that."""

    def rule(book: Translator, call: Call) -> str:
        is_asked = len(call.parameters) in (2, 3) and is_unequal(book.text(call.parameters[1]).strip())
        if not is_asked:
            return f"{function}({';'.join(book.text(parameter) for parameter in call.parameters)})"
        if function == "COUNTIF":
            return CONDITIONS["COUNTIFS"](book, call)
        values = call.parameters[-1] if len(call.parameters) == 3 else call.parameters[0]
        return CONDITIONS["SUMIFS"](book, Call(function, (values, *call.parameters[:2])))

    return rule


def joined(book: Translator, call: Call) -> str:
    """CONCAT of single values."""
    return f"CONCATENATE({';'.join(one_value(book, call, 1, 254))})"


def as_number(book: Translator, call: Call) -> str:
    value = one_value(book, call, 1, 1)[0]
    return f"IF(ISTEXT({value});0;0+{value})"


def to_even(book: Translator, call: Call) -> str:
    return f"(ROUNDUP({one_value(book, call, 1, 1)[0]}/2)*2)"


def to_multiple(book: Translator, call: Call) -> str:
    """MROUND to a step that is a positive number: to the nearest multiple, halves away from zero."""
    number, step = one_value(book, call, 2, 2)
    if not is_positive(call.parameters[1]):
        raise CannotGoOver("MROUND to a step that is no positive number")
    return f"(ROUND({number}/{step})*{step})"


def constant(text: str) -> Rule:
    def rule(book: Translator, call: Call) -> str:
        if call.parameters:
            raise CannotGoOver(f"{call.name} with parameters")
        return text

    return rule


RULES: dict[str, Rule] = {
    "IFS": choices,
    "SWITCH": switch,
    "XLOOKUP": x_lookup,
    "ROWS": count_of(0),
    "COLUMNS": count_of(1),
    "ROW": place_of(True),
    "COLUMN": place_of(False),
    "CEILING": round_to(True),
    "FLOOR": round_to(False),
    "COM.MICROSOFT.CEILING": round_to_as_excel(True),
    "COM.MICROSOFT.FLOOR": round_to_as_excel(False),
    "CEILING.MATH": round_to_as_excel(True),
    "FLOOR.MATH": round_to_as_excel(False),
    "ISEVEN": parity(0),
    "ISODD": parity(1),
    "DATE": day,
    "COUNTBLANK": blanks,
    "COUNTIF": if_unequal("COUNTIF"),
    "SUMIF": if_unequal("SUMIF"),
    "SUMSQ": squares,
    "CONCAT": joined,
    "N": as_number,
    "EVEN": to_even,
    "PI": constant(PI),
    "MROUND": to_multiple,
    **CONDITIONS,
    **LOANS,
    **PRODUCTS,
    **RANKS,
}
