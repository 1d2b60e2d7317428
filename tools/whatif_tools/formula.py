"""Where a formula is refused, and with which code: the tokens and the grammar of docs/MANUAL.md."""

import re
from collections.abc import Iterator
from dataclasses import dataclass, field
from enum import Enum
from fractions import Fraction

from .functions import FUNCTIONS
from .sheet import Rectangle

LONGEST = 4_096
DEEPEST = 64
GREATEST = 2**127 - 1
EXPONENT_IN_DOUBT = 3 * LONGEST
"""A number of at most 4,096 digits with a larger exponent, of either sign, doesn't fit unless it is 0."""

BLANK = " \t\r\n"
QUOTED = r'"(?:[^"]|"")*"(?!")'
"""A text in quotes, here and in the formulas of spreadsheets."""

CELL = r"\$?[A-Za-z]+\$?[1-9][0-9]*"
WHAT_IF = "MULTIPLE.OPERATIONS"


class Kind(Enum):
    """The kinds of tokens. The longest token is taken: `<=` is one."""

    NUMBER = r"(?:[0-9]+(?:\.[0-9]+)?|\.[0-9]+)(?:[eE][-+]?[0-9]+)?"
    TEXT = QUOTED
    REFERENCE = rf"\[\.{CELL}(?::\.{CELL})?\]"
    NAME = r"[A-Za-z_][A-Za-z0-9_.]*"
    SIGN = r"[-+]"
    OPERATOR = r"<=|>=|<>|[*/^&=<>]"
    PERCENT = r"%"
    OPEN = r"\("
    CLOSE = r"\)"
    SEMICOLON = r";"


TOKEN = re.compile("|".join(f"(?P<{kind.name}>{kind.value})" for kind in Kind))


@dataclass(frozen=True)
class Token:
    kind: Kind
    text: str
    place: int

    @property
    def is_cell(self) -> bool:
        return self.kind is Kind.REFERENCE and ":" not in self.text

    @property
    def is_what_if(self) -> bool:
        return self.kind is Kind.NAME and self.text.upper() == WHAT_IF


@dataclass(frozen=True)
class Fault:
    """A refusal and the place in the formula, counted from 0, at which it shows."""

    code: str
    place: int


@dataclass(frozen=True)
class Tokens:
    """The tokens up to the first bytes that begin none, and where the reading ended."""

    tokens: list[Token]
    end: int
    is_whole: bool


def after_blanks(text: str, place: int) -> int:
    return len(text) - len(text[place:].lstrip(BLANK))


def tokens_of(text: str, place: int) -> Tokens:
    """The tokens of a formula from a place on."""
    tokens: list[Token] = []
    place = after_blanks(text, place)
    while place < len(text):
        found = TOKEN.match(text, place)
        if found is None:
            return Tokens(tokens, place, False)
        tokens.append(Token(Kind[str(found.lastgroup)], found[0], place))
        place = after_blanks(text, found.end())
    return Tokens(tokens, place, True)


def is_formula(content: str) -> bool:
    return content.startswith(("=", "of:="))


def fault(formula: str) -> Fault | None:
    """Why the formula, with its `=` or `of:=`, is refused; None where it isn't."""
    if len(formula.encode()) > LONGEST:
        return Fault("E08", 0)
    read = tokens_of(formula, formula.index("=") + 1)
    for look in (outside_sheet, number_too_large, too_deep):
        found = look(read.tokens)
        if found is not None:
            return found
    return Reader(read).fault()


BARE_CELLS = re.compile(rf"(?<![\w.\[$:])({CELL})(?::({CELL}))?(?![\w.(\]])")
JOINS = ("*", "+", "^")


def formula_meant(content: str) -> str | None:
    """The formula that a text was meant to be: with `=` before it, it is one that has a reference, a function, or `*`, `+` or `^` between values."""
    if is_formula(content) or not any(sign in content for sign in ("[.", "(", *JOINS)):
        return None
    formula = "=" + BARE_CELLS.sub(bracketed, content)
    if fault(formula) is not None:
        return None
    tokens = tokens_of(formula, 1).tokens
    is_joined = any(token.text in JOINS for token in tokens[1:])
    is_called = any(token.text in FUNCTIONS for token in tokens)
    return formula if is_joined or is_called or "[." in content else None


def bracketed(found: re.Match[str]) -> str:
    return f"[.{found[1]}]" if found[2] is None else f"[.{found[1]}:.{found[2]}]"


def outside_sheet(tokens: list[Token]) -> Fault | None:
    return next((Fault("E04", token.place) for token in tokens if token.kind is Kind.REFERENCE and rectangle(token) is None), None)


def rectangle(token: Token) -> Rectangle | None:
    """What a reference refers to; None where a corner is outside the sheet."""
    return Rectangle.parse(token.text.strip("[]").replace(".", "").replace("$", ""))


def number_too_large(tokens: list[Token]) -> Fault | None:
    return next((Fault("E07", token.place) for token in tokens if token.kind is Kind.NUMBER and not number_fits(token.text)), None)


def number_fits(text: str) -> bool:
    digits, _, exponent = text.lower().partition("e")
    if not digits.strip("0."):
        return True
    exponent = exponent.lstrip("+-0") or "0"
    if len(exponent) > 9 or int(exponent) > EXPONENT_IN_DOUBT:
        return False
    return fits(Fraction(text))


def fits(number: Fraction) -> bool:
    """Whether both sides of the fraction are within 2^127 - 1."""
    return abs(number.numerator) <= GREATEST and number.denominator <= GREATEST


def too_deep(tokens: list[Token]) -> Fault | None:
    opened, signs = 0, 0
    for token in tokens:
        signs = signs + 1 if token.kind is Kind.SIGN else 0
        if token.kind is Kind.OPEN:
            opened += 1
        elif token.kind is Kind.CLOSE:
            opened = max(0, opened - 1)
        if opened > DEEPEST or signs > DEEPEST:
            return Fault("E06", token.place)
    return None


class Parenthesis(Enum):
    """What an open parenthesis belongs to."""

    GROUP = "a group"
    CALL = "a call"


OPERANDS = (Kind.NUMBER, Kind.TEXT, Kind.REFERENCE)


@dataclass
class Reader:
    """Reads tokens from the left and stops at the first that no formula goes on with."""

    read: Tokens
    next: int = 0
    is_operand_wanted: bool = True
    opened: list[Parenthesis] = field(default_factory=list)

    def fault(self) -> Fault | None:
        while self.next < len(self.read.tokens):
            place = self.step(self.read.tokens[self.next])
            if place is not None:
                return Fault("E05", place)
        if self.is_operand_wanted or self.opened or not self.read.is_whole:
            return Fault("E05", self.read.end)
        return None

    def step(self, token: Token) -> int | None:
        """Takes a token, or gives the place at which the formula is wrong."""
        self.next += 1
        is_taken = self.operand(token) if self.is_operand_wanted else self.after_operand(token)
        if is_taken and token.is_what_if:
            return self.what_if()
        return None if is_taken else token.place

    def operand(self, token: Token) -> bool:
        """Takes what an operand begins with."""
        if token.kind in OPERANDS:
            self.is_operand_wanted = False
            return True
        if token.kind is Kind.OPEN:
            self.opened.append(Parenthesis.GROUP)
            return True
        return token.kind is Kind.SIGN or token.kind is Kind.NAME and self.call(token)

    def call(self, token: Token) -> bool:
        """Takes the parenthesis behind a name, and at once the one behind that if there are no parameters."""
        if self.kind_at(self.next) is not Kind.OPEN:
            return False
        if token.is_what_if:
            return True
        self.next += 1
        if self.kind_at(self.next) is Kind.CLOSE:
            self.next += 1
            self.is_operand_wanted = False
        else:
            self.opened.append(Parenthesis.CALL)
        return True

    def after_operand(self, token: Token) -> bool:
        """Takes what stands behind an operand."""
        if token.kind is Kind.PERCENT:
            return True
        if token.kind is Kind.CLOSE:
            return self.close()
        is_between = token.kind in (Kind.SIGN, Kind.OPERATOR)
        self.is_operand_wanted = is_between or token.kind is Kind.SEMICOLON and self.opened[-1:] == [Parenthesis.CALL]
        return self.is_operand_wanted

    def close(self) -> bool:
        if not self.opened:
            return False
        self.opened.pop()
        return True

    def what_if(self) -> int | None:
        """Takes the three or five cells of MULTIPLE.OPERATIONS, or gives the place of what is none."""
        wanted = [Kind.OPEN, *what_if_kinds(self.read.tokens, self.next + 1), Kind.CLOSE]
        for kind in wanted:
            found = self.token_at(self.next)
            if found is None or found.kind is not kind or kind is Kind.REFERENCE and not found.is_cell:
                return self.read.end if found is None else found.place
            self.next += 1
        self.is_operand_wanted = False
        return None

    def token_at(self, index: int) -> Token | None:
        return self.read.tokens[index] if index < len(self.read.tokens) else None

    def kind_at(self, index: int) -> Kind | None:
        token = self.token_at(index)
        return None if token is None else token.kind


def what_if_kinds(tokens: list[Token], start: int) -> Iterator[Kind]:
    """The kinds that the parameters of a what-if have: five cells where a semicolon is behind the third, else three."""
    has_five = len(tokens) > start + 5 and tokens[start + 5].kind is Kind.SEMICOLON
    yield Kind.REFERENCE
    for _ in range(4 if has_five else 2):
        yield Kind.SEMICOLON
        yield Kind.REFERENCE
