"""What an accepted content was perhaps meant to be."""

import re
from collections.abc import Iterator

from .finding import Finding, Kind
from .formula import formula_meant, is_formula
from .functions import instead_of
from .numbers import meant_as_number
from .script import Command

NO_ARRAYS = 'there are no formulas of arrays, which others show in braces: docs/FROM.md, "Conditions on several columns", has a column for them'


def content_findings(command: Command) -> Iterator[Finding]:
    content = command.content
    if content is None or content.startswith("'"):
        return
    place = command.content_place + 1

    def found(kind: Kind, column: int, message: str) -> Finding:
        return Finding(command.line, column, kind, message, command.text)

    advice = meant_as_number(content)
    if advice is not None:
        yield found(Kind.TEXT_FOR_NUMBER, place, f"a text, no number: {content!r}; {advice}")
    if len(content) > 1 and content[0] == content[-1] == '"':
        yield found(Kind.QUOTES_KEPT, place, f"the quotes are a part of the text: write {content[1:-1]}")
    for sign in (" # ", " // "):
        if sign in content:
            message = "no comment, but a part of the content: a comment has a line of its own, which begins with #"
            yield found(Kind.COMMENT_KEPT, place + content.index(sign) + 1, message)
    instead = formula_advice(command, content)
    if instead is not None:
        yield found(Kind.FORMULA_AS_TEXT, place, f"a text, no formula: {instead}")


def formula_advice(command: Command, content: str) -> str | None:
    """What to write for a text that was meant as a formula."""
    if command.name == "scenario":
        formula = content if is_formula(content) else formula_meant(content)
        return None if formula is None else f"a scenario replaces by values; show the value of {formula} first"
    if is_formula(content):
        return None
    in_braces = re.fullmatch(r"\{(=.*)\}", content)
    if in_braces is not None:
        return instead_of("TABLE") if in_braces[1].upper().startswith("=TABLE(") else NO_ARRAYS
    trimmed = content.strip(" \t\u00a0")
    if is_formula(trimmed) and trimmed not in ("=", "of:="):
        return f"one space stands before a content, and each further one is a part of it: write {trimmed}"
    formula = formula_meant(content)
    return None if formula is None else f"write {formula}"
