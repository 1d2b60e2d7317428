"""What to write instead of a formula that was refused; hints by patterns."""

import re
from collections.abc import Callable, Iterable
from dataclasses import dataclass

from .functions import FUNCTIONS
from .sheet import COLUMNS, column_letters

CELL = r"\$?[A-Za-z]{1,3}\$?[1-9][0-9]*"
BARE = rf"({CELL})(?::({CELL}))?"
QUOTES = "“”„‟‘’«»'`"


@dataclass(frozen=True)
class Hint:
    """A hint for a line or a formula that goes on like the pattern from where it is wrong; it may have nothing to say."""

    pattern: re.Pattern[str]
    advice: Callable[[re.Match[str]], str | None]


def hint(pattern: str, advice: str | Callable[[re.Match[str]], str | None]) -> Hint:
    """A hint that is a sentence, or one that is made of what was found."""
    if isinstance(advice, str):
        sentence = advice
        return Hint(re.compile(pattern), lambda _: sentence)
    return Hint(re.compile(pattern), advice)


def reference(first: str, last: str | None) -> str:
    return f"[.{first}]" if last is None else f"[.{first}:.{last}]"


def bare(found: re.Match[str]) -> str:
    return f"a cell is written in brackets, with a point: write {reference(found[1], found[2])}"


def without_point(found: re.Match[str]) -> str:
    return f"each cell has a point before it: write {reference(found[1], found[2])}"


def pair(found: re.Match[str]) -> str:
    """What to write for two cells in brackets of their own, with `:` between them."""
    first = re.search(rf"\[\.({CELL})\]\s*$", found.string[: found.start()])
    return "a rectangle has one pair of brackets: write " + (f"[.{first[1]}:.{found[1]}]" if first else "[.A1:.A3]")


def name_or_text(found: re.Match[str]) -> str:
    """What to write for a word: the cell's address where it stands beside an operator, else a text perhaps."""
    name, text = found[1], found.string
    before, behind = text[: found.start()].rstrip()[-1:], text[found.end() :].lstrip()[:1]
    is_joined = before in tuple("+-*/^<>&") or behind in tuple("+-*/^<>%")
    cell, quoted = "there are no names: a cell is written by its address, as [.B4]", f'a text is written in quotes: "{name}"'
    return f"{cell}; {quoted}" if is_joined else f"{quoted}; {cell}; behind a function's name comes a ("


def row_and_column(found: re.Match[str]) -> str:
    """What to write for R2C3."""
    row, column = found[1] or "", found[2] or ""
    is_place = row.isdigit() and column.isdigit() and 0 < int(column) <= COLUMNS
    example = f"[.{column_letters(int(column))}{row}]" if is_place else "[.A1]"
    return f"a cell is written by its column's letters and its row: write {example}"


def in_parentheses(found: re.Match[str]) -> str | None:
    """What to write for a function with brackets behind its name."""
    return f"parameters are in parentheses: write {found[1]}([.A1:.A3])" if found[1].upper() in FUNCTIONS else None


WHAT_IF = "MULTIPLE.OPERATIONS has three or five parameters, each a cell, parted by ; as in MULTIPLE.OPERATIONS([.B5];[.B1];[.D2])"
ONE_SHEET = "there is one sheet: a cell is written [.A1], without a sheet's name"
NAMELESS = "there are no names of ranges and no tables with columns: a cell is written [.B4]"
BEHIND_VALUE = (
    hint(r"(?i)(AND|OR|XOR)\b", lambda found: f"it is a function: write {'AND' if found[1].upper() == 'AND' else 'OR'}(a;b)"),
    hint(r"(?<=&)&", "the function is AND: write AND(a;b)"),
    hint(r"\|", "the function is OR: write OR(a;b); texts are joined by &"),
    hint(r"(?i)(?:MOD|DIV)\b|\\|%\s*(?=[\d(\[])", "the remainder is MOD(n;m), and the whole quotient QUOTIENT(n;m)"),
    hint(r"(?i)(?:THEN|ELSE)\b|\?", "a choice is IF(condition;then;else)"),
    hint(r"!=|=!", "unequal is written <>"),
    hint(r"(?<=[ 0-9])[0-9]{3}\b", "thousands aren't parted: write the number without spaces; or an operator is missing"),
    hint(r"\[", "an operator is missing before this"),
    hint(r'(?<=")[A-Za-z_0-9]', "the text ends at the quote before this: one inside a text is doubled, and & joins two texts"),
    hint(r"[xX](?=\s*[-+0-9.(\[])", "a product is written with *"),
    hint(rf":\s*\[\.({CELL})\]", pair),
)
"""Hints for what stands behind a value."""

FORMULA_HINTS = (
    hint(r"#(?![A-Z])", "a comment has a line of its own, which begins with #"),
    hint(r"(?<=/)/", "a whole quotient is QUOTIENT(n;m)"),
    hint(r"(?<=[0-9])\.[0-9]", "a number has one point, and thousands aren't parted"),
    hint(r"([A-Za-z_][\w.]*)(?=\[)", in_parentheses),
    hint(r"(?<==)>", "at least is written >="),
    hint(r"(?<==)<", "at most is written <="),
    hint(r"(?<=[<>] )=", "the two signs have no space between them: >= and <="),
    hint(r"""(?<=[\w\])"%]=)=|(?<=[\w\])"%] =)=""", "equal is written with one ="),
    hint(r"(?<=\*)\*", "a power is written with ^"),
    hint(r"!=", "unequal is written <>"),
    hint(r"!", "not is a function: write NOT(a)"),
    hint(r"(?i)(AND|OR|NOT)\b(?!\()", lambda found: f"it is a function: write {found[1].upper()}({'a' if found[1].upper() == 'NOT' else 'a;b'})"),
    hint(r"#(?:REF|NAME|VALUE|NUM|N/A|DIV|NULL)", "an error isn't written in a formula: write the cell that was meant; NA() gives #N/A"),
    hint(r"\[[@#]|@", NAMELESS),
    hint(r"R(\d+|\[-?\d+\])?C(\d+|\[-?\d+\])?(?![\w(.\[])", row_and_column),
    hint(r"\$?[A-Za-z]{1,3}:\$?[A-Za-z]{1,3}(?![\w(])", "a whole column is written [.A1:.A1048576]"),
    hint(r"[0-9]+:[0-9]+|(?<=[0-9]):[0-9]+", "a whole row is written [.A1:.XFD1]"),
    hint(r"\[\.?\$?[A-Za-z]{1,3}:\.?\$?[A-Za-z]{1,3}\]", "a whole column is written [.A1:.A1048576]"),
    hint(r"(?:[$€£¥]|EUR|USD|GBP|CHF)\s*[0-9]", "a number has no currency"),
    hint(r"[²³]", lambda found: f"a power is written with ^: write ^{'2' if found[0] == '²' else '3'}"),
    hint(r"√", "there is no root: docs/FROM.md, \"Roots and other steps\", has it in steps"),
    hint(r"(?i)(TRUE|FALSE)\b(?!\()", lambda found: f"in a formula it is a function: write {found[1].upper()}()"),
    hint(r"(?i)MULTIPLE\.OPERATIONS", WHAT_IF),
    hint(rf"{BARE}(?![\w.!(])", bare),
    hint(rf"\[\.?{BARE}\]", without_point),
    hint(rf"\[\.?{CELL}:\.?({CELL})", "a rectangle is written [.A1:.A3], and ends with ]"),
    hint(r"\[\$?(?:'[^']*'|[A-Za-z_][\w ]*)\.", ONE_SHEET),
    hint(rf"\[\.?{CELL}", "a cell is written [.A1], and ends with ]"),
    hint(r"\[", "a cell is written [.A1], a rectangle [.A1:.A3]"),
    hint(rf"\$?(?:'[^']*'|[A-Za-z_]\w*)[.!]{CELL}", ONE_SHEET),
    hint(r",", "parameters are parted by ; and decimals have a point"),
    hint(rf"[{QUOTES}]", 'a text is written in plain double quotes: "like this"'),
    hint(r'"', "the text isn't closed: a quote is missing, or one inside it isn't doubled"),
    hint(r"[;)]", 'a parameter or a value is missing before this: write 0 or ""; or a ) is too many'),
    hint(r"[A-Za-z_][\w.]*\s*\(", "an operator is missing before the function"),
    hint(r"([A-Za-z_][\w.]*)", name_or_text),
    hint(r"[=*/^&<>%]", "a value is missing before the operator"),
    hint(r"[0-9(]", "an operator is missing before this"),
    hint(r"[{}]", "there are no lists in a formula: put the values into cells"),
    hint(r"[−–×÷≤≥≠·]", "operators are written + - * / ^ & = <> < <= > >="),
    hint(r"[\u00a0\u2007\u2009\u202f]", "a space from a word processor: write a plain one"),
    hint(r"\s*$", "something is missing at the end: a value, or a ) for each ("),
)


def first_advice(hints: Iterable[Hint], text: str, place: int = 0) -> str | None:
    """What the first hint says that fits the text from a place on."""
    matches = ((known, known.pattern.match(text, place)) for known in hints)
    said = (known.advice(found) for known, found in matches if found is not None)
    return next((advice for advice in said if advice is not None), None)


def formula_hint(formula: str, place: int) -> str:
    """What to write where the formula is wrong at a place."""
    if is_in_what_if(formula, place):
        return WHAT_IF
    if re.match(r"(?i)(?:of:)?=\s*\{?=?TABLE\s*\(", formula):
        return f"Excel's TABLE is MULTIPLE.OPERATIONS here: {WHAT_IF.partition(' ')[2]}"
    is_behind_value = re.search(r"[\])0-9\"%&]\s*$", formula[:place]) is not None
    hints = (*BEHIND_VALUE, *FORMULA_HINTS) if is_behind_value else FORMULA_HINTS
    return first_advice(hints, formula, place) or "this can't be here"


def is_in_what_if(formula: str, place: int) -> bool:
    """Whether the place is inside the parentheses of MULTIPLE.OPERATIONS."""
    before = re.sub(r'"[^"]*"', "", formula[:place])
    return re.search(r"(?i)MULTIPLE\.OPERATIONS\s*\([^()]*$", before) is not None
