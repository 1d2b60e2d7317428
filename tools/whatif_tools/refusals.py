"""Where a command was refused, and what to write instead."""

from .finding import Finding, Kind
from .formula import fault, is_formula
from .hints import formula_hint
from .line_hints import BY_CODE, line_hint, name_hint
from .program import Help, Reply
from .scenarios import Scenarios
from .script import Command, is_utf8
from .sheet import AREA, Rectangle
from .words import wrong_place


def refused(command: Command, reply: Reply, known: Help, scenarios: Scenarios) -> Finding:
    """A refusal, with its place where that is known, and what to write instead."""
    code = reply.code or ""
    place, hint = place_and_hint(command, code, known, scenarios)
    said = f"{reply.end}: {known.meanings.get(code, 'no such code')}"
    return Finding(command.line, place + 1, Kind.REFUSED, f"{said}; {hint}" if hint else said, command.text, code)


def place_and_hint(command: Command, code: str, known: Help, scenarios: Scenarios) -> tuple[int, str | None]:
    """Where a command is wrong, counted from 0, and what to write instead."""
    content = command.content
    if command.name == "set" and content is not None and is_formula(content):
        found = fault(content)
        if found is not None and found.code == code:
            hint = formula_hint(content, found.place) if code == "E05" else BY_CODE.get(code)
            return command.content_place + found.place, hint
    if code == "E02":
        return wrong_place(command, known.forms), line_hint(command, known.forms)
    if code == "E04":
        return outside_place(command), BY_CODE[code]
    if code == "E03" and not is_utf8(command.raw):
        return command.text.index("\ufffd"), BY_CODE[code]
    if code == "E10":
        name = scenarios.unknown(command)
        return command.word_place(name), name_hint(name, scenarios.scenarios)
    return first_word(command), BY_CODE.get(code)


def outside_place(command: Command) -> int:
    """Where the first address outside the sheet is."""
    areas = (word for word in command.words[1:] if AREA.fullmatch(word) and Rectangle.parse(word) is None)
    return next((command.word_place(word) for word in areas), first_word(command))


def first_word(command: Command) -> int:
    return len(command.text) - len(command.text.lstrip(" "))
