"""What helps where an error starts, by its formula and by what the cells that it reads show."""

import re
from collections.abc import Iterator
from fractions import Fraction

from .formula import Kind, Token, rectangle, tokens_of
from .functions import FUNCTIONS, instead_of
from .numbers import is_number, meant_as_number
from .sheet import Address, Rectangle

Values = dict[Address, tuple[str, str]]
"""What cells show: the kind of each and its text."""

CURES = {
    "#NUM!": 'round an earlier step: docs/TROUBLE.md, "#NUM!"',
    "#VALUE!": "a text where a number is needed, or several cells for one value: VALUE makes a number of a text",
    "#DIV/0!": "a divisor is 0 or empty: =IF([.B2]=0;0;[.B1]/[.B2]) asks first",
    "#N/A": "nothing is found: texts match only where every letter is the same, capitals too; IFNA(..;0) puts a value in its place",
    "#REF!": "a place outside the range: count its rows and columns",
    "#NAME?": "a function isn't there: docs/FUNCTIONS.md has those that are",
    "#CIRC!": "a cell reads itself, by others perhaps",
}
LOOK_UPS = ("VLOOKUP", "HLOOKUP", "MATCH")
LONGEST_SHOWN = 60


def cure(error: str, formula: str, values: Values) -> str | None:
    """What to do about an error that starts in a formula."""
    tokens = tokens_of(formula, formula.index("=") + 1).tokens
    if error == "#NAME?":
        names = (token.text for token in tokens if token.kind is Kind.NAME)
        return next((instead_of(name) for name in names if name.upper() not in FUNCTIONS), None)
    look = {"#NUM!": too_long, "#VALUE!": text_for_number, "#DIV/0!": divided, "#N/A": not_found, "#REF!": outside}.get(error)
    said = None if look is None else next(look(formula, tokens, values), None)
    return said or (CURES.get(error) if error != "#CIRC!" else None)


def names_in(tokens: list[Token]) -> list[str]:
    return [token.text.upper() for token in tokens if token.kind is Kind.NAME]


def value_of(token: Token, values: Values) -> tuple[str, str] | None:
    """The kind and the text of what a token stands for: a number, a text, or a cell."""
    if token.kind is Kind.NUMBER:
        return "N", token.text
    if token.kind is Kind.TEXT:
        return "T", token.text[1:-1].replace('""', '"')
    cell = rectangle(token) if token.is_cell else None
    return None if cell is None else values.get(cell.first, ("-", ""))


def number_of(token: Token, values: Values) -> Fraction | None:
    known = value_of(token, values)
    return Fraction(known[1]) if known is not None and known[0] == "N" else None


def too_long(formula: str, tokens: list[Token], values: Values) -> Iterator[str]:
    for before, behind in zip(tokens, tokens[1:]):
        exponent = number_of(behind, values) if before.text == "^" else None
        if exponent is not None and exponent.denominator != 1:
            yield f'an exponent is a whole number, and {behind.text} is {exponent}: docs/FROM.md, "Roots and other steps", has roots in steps'
    if any(token.text == "^" for token in tokens) or "POWER" in names_in(tokens):
        yield 'the exact power doesn\'t fit: a column of rounded products does, docs/TROUBLE.md, "#NUM!"'
    if set(names_in(tokens)) & {"SUM", "AVERAGE", "SUMPRODUCT", "SUMIF"}:
        yield 'the exact sum doesn\'t fit: round the lines of the list first, =ROUND(..;8): docs/TROUBLE.md, "#NUM!"'
    body = formula[formula.index("=") + 1 :]
    if len(body) <= LONGEST_SHOWN and "ROUND" not in body.upper():
        yield f'the exact number doesn\'t fit: round each step, =ROUND({body};12), here and in the cells before it; docs/TROUBLE.md, "#NUM!"'
    yield 'the exact number doesn\'t fit: round each step in the cells before it; docs/TROUBLE.md, "#NUM!"'


def text_for_number(formula: str, tokens: list[Token], values: Values) -> Iterator[str]:
    for token in tokens:
        if token.kind is Kind.REFERENCE and not token.is_cell and is_beside_operator(tokens, token):
            yield f"{token.text} is several cells, and one value is needed: SUM({token.text}) adds them"
    for token in tokens:
        known = value_of(token, values)
        if known is None or known[0] != "T":
            continue
        advice = meant_as_number(known[1])
        if advice is not None and token.is_cell:
            yield f"{token.text} shows a text, {known[1]!r}: {advice}"
        if is_number(known[1]):
            yield f"{token.text} is a text, though it spells a number: write VALUE({token.text})"
    for token in tokens:
        known = value_of(token, values)
        if known is not None and known[0] == "T" and token.is_cell:
            yield f"{token.text} shows a text, {known[1][:30]!r}, and a text is never taken as a number"


def is_beside_operator(tokens: list[Token], token: Token) -> bool:
    at = tokens.index(token)
    beside = [known for known in (tokens[at - 1] if at > 0 else None, tokens[at + 1] if at + 1 < len(tokens) else None) if known is not None]
    return not beside or any(known.kind in (Kind.SIGN, Kind.OPERATOR) for known in beside)


def divided(formula: str, tokens: list[Token], values: Values) -> Iterator[str]:
    for before, behind in zip(tokens, tokens[1:]):
        known = value_of(behind, values) if before.text == "/" else None
        if known is not None and known[0] == "-":
            yield f"{behind.text} is empty, and counts as 0: =IF({behind.text}=0;0;..) asks first"
        if known is not None and known == ("N", "0"):
            yield f"{behind.text} is 0: =IF({behind.text}=0;0;..) asks first" if behind.is_cell else "a divisor is 0"
    if "AVERAGE" in names_in(tokens):
        yield "there is no number in the range: =IF(COUNT(..)=0;0;AVERAGE(..)) asks first"
    if {"MOD", "QUOTIENT"} & set(names_in(tokens)):
        yield "the second parameter is 0 or empty"


def not_found(formula: str, tokens: list[Token], values: Values) -> Iterator[str]:
    for at, token in enumerate(tokens[:-4]):
        if token.kind is Kind.NAME and token.text.upper() in LOOK_UPS and tokens[at + 3].text == ";":
            sought, place = value_of(tokens[at + 2], values), rectangle(tokens[at + 4]) if tokens[at + 4].kind is Kind.REFERENCE else None
            if sought is not None and place is not None:
                yield from nearly(sought, searched(token.text.upper(), place), values)
    if names_in(tokens) == ["NA"]:
        yield "NA() gives it"


def searched(name: str, area: Rectangle) -> Rectangle:
    """The cells in which a look-up searches."""
    if name == "VLOOKUP":
        return Rectangle(area.first, Address(area.last.row, area.first.column))
    return Rectangle(area.first, Address(area.first.row, area.last.column)) if name == "HLOOKUP" else area


def nearly(sought: tuple[str, str], area: Rectangle, values: Values) -> Iterator[str]:
    """What is there instead of what is sought: the same in other letters, with spaces, or of another kind."""
    kind, text = sought
    for cell, (known_kind, known) in values.items():
        if cell not in area:
            continue
        if kind == known_kind == "T" and text != known and folded(text) == folded(known):
            yield f"{text!r} isn't found, and {cell} has {known!r}: texts match only where every letter is the same, capitals and spaces too"
        if {kind, known_kind} == {"N", "T"} and text == known:
            what = ("a text", "a number") if kind == "T" else ("a number", "a text")
            yield f"{text} is sought as {what[0]}, and {cell} has {what[1]}: VALUE makes a number of a text"
    if kind == "T" and re.search(r"[*?]", text):
        yield f"there are no wildcards: {text!r} is sought letter by letter"
    if kind == "-":
        yield "what is sought is an empty cell, which counts as 0"


def folded(text: str) -> str:
    return " ".join(text.split()).casefold()


def outside(formula: str, tokens: list[Token], values: Values) -> Iterator[str]:
    for at, token in enumerate(tokens):
        if token.kind is Kind.NAME and token.text.upper() in ("INDEX", *LOOK_UPS):
            areas = [known for known in tokens[at : at + 6] if known.kind is Kind.REFERENCE and not known.is_cell]
            area = rectangle(areas[0]) if areas else None
            if area is not None:
                rows, columns = area.last.row - area.first.row + 1, area.last.column - area.first.column + 1
                yield f"a place outside the range: {areas[0].text} has {counted(rows, 'row')} and {counted(columns, 'column')}"


def counted(count: int, of: str) -> str:
    return f"{count} {of}" + ("s" if count != 1 else "")
