"""Formulas of the reference: tokens, trees, and the texts of trees."""

import re
from collections.abc import Callable
from dataclasses import dataclass
from fractions import Fraction

from tests.reference.exact import Overflow, decimal_text, scaled

COLUMNS = 16_384
ROWS = 1_048_576
LONGEST_FORMULA = 4_096
DEEPEST = 64


class Refused(Exception):
    """A command or formula is refused, with this code."""


@dataclass(frozen=True)
class Corner:
    """A cell as a reference spells it, counted from 0."""

    fixed_column: bool
    column: int
    fixed_row: bool
    row: int

    def text(self) -> str:
        return f".{'$' * self.fixed_column}{column_letters(self.column)}{'$' * self.fixed_row}{self.row + 1}"

    def moved(self, down: int, right: int) -> "Corner":
        column = self.column if self.fixed_column else self.column + right
        row = self.row if self.fixed_row else self.row + down
        if not (0 <= column < COLUMNS and 0 <= row < ROWS):
            raise Refused("E16")
        return Corner(self.fixed_column, column, self.fixed_row, row)

    @property
    def cell(self) -> tuple[int, int]:
        return self.row, self.column


@dataclass(frozen=True)
class Number:
    value: Fraction


@dataclass(frozen=True)
class Text:
    value: str


@dataclass(frozen=True)
class Reference:
    """A cell, or a rectangle by two corners in any order."""

    corner: Corner
    other: Corner | None

    def rectangle(self) -> tuple[int, int, int, int]:
        """The first row and column, and the last ones."""
        other = self.other or self.corner
        rows = sorted((self.corner.row, other.row))
        columns = sorted((self.corner.column, other.column))
        return rows[0], columns[0], rows[1], columns[1]


@dataclass(frozen=True)
class Call:
    name: str
    arguments: tuple["Tree", ...]


@dataclass(frozen=True)
class WhatIf:
    """The cells of MULTIPLE.OPERATIONS: the formula cell, and pairs of an input and the cell that takes its place."""

    references: tuple[Reference, ...]


@dataclass(frozen=True)
class Parenthesised:
    inner: "Tree"


@dataclass(frozen=True)
class Signed:
    sign: str
    operand: "Tree"


@dataclass(frozen=True)
class Percent:
    operand: "Tree"


@dataclass(frozen=True)
class Binary:
    operator: str
    left: "Tree"
    right: "Tree"


Tree = Number | Text | Reference | Call | WhatIf | Parenthesised | Signed | Percent | Binary

# ---- cells


def column_letters(column: int) -> str:
    letters, left = "", column + 1
    while left:
        left, digit = divmod(left - 1, 26)
        letters = chr(65 + digit) + letters
    return letters


def column_number(letters: str) -> int:
    number = 0
    for letter in letters.upper():
        number = number * 26 + ord(letter) - 64
    return number - 1


# ---- tokens

CELL = r"\.\$?[A-Za-z]+\$?[1-9][0-9]*"
TOKEN = re.compile(
    rf"""(?P<number>(?:[0-9]+(?:\.[0-9]+)?|\.[0-9]+)(?:[eE][-+]?[0-9]+)?)
    |(?P<text>"(?:[^"]|"")*")
    |(?P<reference>\[{CELL}(?::{CELL})?\])
    |(?P<name>[A-Za-z_][A-Za-z0-9_.]*)
    |(?P<mark><>|<=|>=|[();+\-*/^%&=<>])""",
    re.VERBOSE | re.ASCII,
)
BLANKS = " \t\r\n"
PARTS = re.compile(r"(\$?)([A-Za-z]+)(\$?)([0-9]+)", re.ASCII)


@dataclass(frozen=True)
class Token:
    kind: str
    text: str


def tokens_of(body: str) -> tuple[list[Token], bool]:
    """The tokens up to the first bad one or the end, and whether the end was reached."""
    tokens: list[Token] = []
    at = 0
    while True:
        while at < len(body) and body[at] in BLANKS:
            at += 1
        if at == len(body):
            return tokens, True
        found = TOKEN.match(body, at)
        if not found:
            return tokens, False
        tokens.append(Token(found.lastgroup or "", found.group()))
        at = found.end()


def corners_of(text: str) -> list[Corner]:
    return [
        Corner(bool(column_mark), column_number(letters), bool(row_mark), int(digits) - 1)
        for column_mark, letters, row_mark, digits in PARTS.findall(text)
    ]


def number_of(text: str) -> Fraction:
    mantissa, _, exponent = text.lower().partition("e")
    whole, _, places = mantissa.partition(".")
    return scaled(whole + places, int(exponent or "0") - len(places))


# ---- refusals in their order


def check_tokens(tokens: list[Token]) -> None:
    for token in tokens:
        if token.kind == "reference" and any(c.column >= COLUMNS or c.row >= ROWS for c in corners_of(token.text)):
            raise Refused("E04")
    for token in tokens:
        if token.kind == "number":
            try:
                number_of(token.text)
            except Overflow:
                raise Refused("E07") from None
    is_open = signs = 0
    for token in tokens:
        is_open = max(is_open + (token.text == "(") - (token.text == ")"), 0)
        signs = signs + 1 if token.kind == "mark" and token.text in "+-" else 0
        if is_open > DEEPEST or signs > DEEPEST:
            raise Refused("E06")


def parse(content: str) -> Tree:
    """The tree of a content that begins with `=` or `of:=`."""
    if len(content.encode()) > LONGEST_FORMULA:
        raise Refused("E08")
    tokens, whole = tokens_of(content.removeprefix("of:")[1:])
    check_tokens(tokens)
    if not whole:
        raise Refused("E05")
    parser = Parser(tokens)
    tree = parser.compare()
    if parser.at < len(tokens):
        raise Refused("E05")
    return tree


class Parser:
    """One method for each line of the grammar."""

    def __init__(self, tokens: list[Token]) -> None:
        self.tokens = tokens
        self.at = 0

    def mark(self) -> str:
        """The operator or mark that comes next."""
        token = self.tokens[self.at] if self.at < len(self.tokens) else Token("", "")
        return token.text if token.kind == "mark" else ""

    def take(self) -> Token:
        if self.at == len(self.tokens):
            raise Refused("E05")
        self.at += 1
        return self.tokens[self.at - 1]

    def wants(self, mark: str) -> None:
        if self.mark() != mark:
            raise Refused("E05")
        self.at += 1

    def chain(self, operators: tuple[str, ...], part: Callable[[], Tree]) -> Tree:
        tree = part()
        while self.mark() in operators:
            operator = self.take().text
            tree = Binary(operator, tree, part())
        return tree

    def compare(self) -> Tree:
        return self.chain(("=", "<>", "<", "<=", ">", ">="), self.concat)

    def concat(self) -> Tree:
        return self.chain(("&",), self.sum)

    def sum(self) -> Tree:
        return self.chain(("+", "-"), self.product)

    def product(self) -> Tree:
        return self.chain(("*", "/"), self.power)

    def power(self) -> Tree:
        return self.chain(("^",), self.percent)

    def percent(self) -> Tree:
        tree = self.prefix()
        while self.mark() == "%":
            self.take()
            tree = Percent(tree)
        return tree

    def prefix(self) -> Tree:
        signs = []
        while self.mark() in ("+", "-"):
            signs.append(self.take().text)
        tree = self.atom()
        for sign in reversed(signs):
            tree = Signed(sign, tree)
        return tree

    def atom(self) -> Tree:
        token = self.take()
        if token.kind == "number":
            return Number(number_of(token.text))
        if token.kind == "text":
            return Text(token.text[1:-1].replace('""', '"'))
        if token.kind == "reference":
            first, *second = corners_of(token.text)
            return Reference(first, second[0] if second else None)
        if token.kind == "name":
            return self.call(token.text.upper())
        if token.text == "(":
            inner = self.compare()
            self.wants(")")
            return Parenthesised(inner)
        raise Refused("E05")

    def call(self, name: str) -> Tree:
        self.wants("(")
        arguments = [] if self.mark() == ")" else [self.compare()]
        while arguments and self.mark() == ";":
            self.take()
            arguments.append(self.compare())
        self.wants(")")
        if name != "MULTIPLE.OPERATIONS":
            return Call(name, tuple(arguments))
        cells = tuple(a for a in arguments if isinstance(a, Reference) and a.other is None)
        if len(cells) != len(arguments) or len(cells) not in (3, 5):
            raise Refused("E05")
        return WhatIf(cells)


# ---- what is made of trees


def parts_of(tree: Tree) -> tuple[Tree, ...]:
    match tree:
        case Call(_, arguments):
            return arguments
        case WhatIf(references):
            return references
        case Parenthesised(inner) | Signed(_, inner) | Percent(inner):
            return (inner,)
        case Binary(_, left, right):
            return (left, right)
    return ()


def reads(tree: Tree) -> list[tuple[int, int, int, int]]:
    """The rectangles that a tree reads, whichever branch is taken; inputs of what-ifs are named and not read."""
    if isinstance(tree, Reference):
        return [tree.rectangle()]
    if isinstance(tree, WhatIf):
        read = [tree.references[0], *tree.references[2::2]]
        return [reference.rectangle() for reference in read]
    return [rectangle for part in parts_of(tree) for rectangle in reads(part)]


def moved_reference(reference: Reference, down: int, right: int) -> Reference:
    return Reference(reference.corner.moved(down, right), reference.other and reference.other.moved(down, right))


def moved(tree: Tree, down: int, right: int) -> Tree:
    match tree:
        case Reference():
            return moved_reference(tree, down, right)
        case Call(name, arguments):
            return Call(name, tuple(moved(a, down, right) for a in arguments))
        case WhatIf(references):
            return WhatIf(tuple(moved_reference(r, down, right) for r in references))
        case Parenthesised(inner):
            return Parenthesised(moved(inner, down, right))
        case Signed(sign, inner):
            return Signed(sign, moved(inner, down, right))
        case Percent(inner):
            return Percent(moved(inner, down, right))
        case Binary(operator, left, rest):
            return Binary(operator, moved(left, down, right), moved(rest, down, right))
    return tree


def printed(tree: Tree) -> str:
    match tree:
        case Number(value):
            return decimal_text(value, 127)
        case Text(value):
            return '"' + value.replace('"', '""') + '"'
        case Reference(corner, other):
            return f"[{corner.text()}{':' + other.text() if other else ''}]"
        case Call(name, arguments):
            return f"{name}({';'.join(map(printed, arguments))})"
        case WhatIf(references):
            return f"MULTIPLE.OPERATIONS({';'.join(map(printed, references))})"
        case Parenthesised(inner):
            return f"({printed(inner)})"
        case Signed(sign, operand):
            return sign + printed(operand)
        case Percent(operand):
            return printed(operand) + "%"
        case Binary(operator, left, right):
            return printed(left) + operator + printed(right)
