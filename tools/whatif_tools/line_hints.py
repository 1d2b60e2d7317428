"""What to write instead of a line that was refused, and what helps with each refusal."""

import re
from collections.abc import Collection
from difflib import get_close_matches

from .hints import CELL, first_advice, hint
from .script import Command
from .sheet import Rectangle
from .words import EDITS

BY_CODE = {
    "E01": "nothing has changed: give the program more memory, or fewer cells",
    "E03": "save the script as UTF-8, its lines at most 65,536 bytes long: iconv -f LATIN1 -t UTF-8",
    "E04": "columns are A to XFD, rows 1 to 1048576",
    "E06": "at most 64 parentheses are open at once: take parts into cells of their own",
    "E07": "a number is at most 2^127 - 1; any 38 digits fit",
    "E08": "a formula has at most 4,096 bytes and a text 32,767: take parts into cells of their own",
    "E09": "at most 200,000 cells are filled: clear what isn't needed",
    "E10": "no line before this made the scenario: scenario NAME ADDR CONTENT does",
    "E11": "there are at most 64 scenarios, 256 replacements in each, and 64 sessions: drop a scenario that isn't needed",
    "E12": "a session uses it, or another scenario is based on it: use without a name, or base NAME, ends that",
    "E13": "the number behind csv counts lines, and there are fewer: awk 'END { print NR }' counts them",
    "E14": "save the CSV as UTF-8: iconv -f LATIN1 -t UTF-8",
    "E15": "at most 65,536 cells or entries at once: ask for parts",
    "E16": "fill a smaller area, or write $ before what mustn't move",
    "E17": "start anew, with the cells as they are now",
    "E18": "changes shows what the others did, and the edit is accepted behind it; or write force before it",
    "E19": "the other scenario is based on this one, itself or by a third: base NAME takes a base away",
}


WORDS = "set|clear|fill|csv|show|export|table|scenario|base|drop|use|as|changes|compare|force|formula"
ADDRESS = "[A-Za-z]+[1-9][0-9]*"


def first_and_rest(area: str) -> tuple[str, str]:
    """The first cell of a rectangle, and the others where they are a rectangle too, else all."""
    known = Rectangle.parse(area)
    if known is None or (known.first.row < known.last.row) == (known.first.column < known.last.column):
        return area.partition(":")[0], area
    first, last = known.first, known.last
    second = first._replace(row=first.row + 1) if first.row < last.row else first._replace(column=first.column + 1)
    return str(first), str(second) if second == last else f"{second}:{last}"


def one_cell(found: re.Match[str]) -> str:
    first, rest = first_and_rest(found[1])
    return f"set puts one cell, and fill copies it: write set {first} {found[2]} and fill {first} {rest}"


def source_first(found: re.Match[str]) -> str:
    first, rest = first_and_rest(found[1])
    source = (found[2] or first).upper()
    return f"the cell that is copied comes first: write fill {source} {rest if source == first else found[1]}"


def one_word(found: re.Match[str]) -> str:
    return f"a name is one word: write {found[1]} {found[2]}_{found[3]}{found[4]}"


def nearest(found: re.Match[str]) -> str | None:
    """The command that is spelled most like a word that is none."""
    near = get_close_matches(found[1].lower(), WORDS.split("|"), 1)
    return None if found[1] in WORDS.split("|") or not near else f"is {near[0]} meant?"


def words(text: str, instead: str) -> dict[str, str]:
    return dict.fromkeys(text.split(), instead)


OTHER_WORDS = {
    **words("print get display view list see value read", "show RECT writes what cells show"),
    **words("let put input write enter assign cell name define number text setformula", "set ADDR CONTENT puts something into a cell"),
    **words("delete del remove erase empty rm", "clear RECT empties cells, and drop NAME removes a scenario"),
    **words("copy paste filldown fillright drag", "fill ADDR RECT copies a cell"),
    **words("import insert append", "csv ADDR LINES takes the table on the next lines"),
    **words("whatif what try", "table F R XCOLUMN asks what F shows with other values in R; scenario NAME ADDR CONTENT keeps some"),
    **words("seek goal goalseek solve solver find optimize", 'there is none: docs/FROM.md, "Roots and other steps", halves in cells'),
    **words("chart plot graph draw sort filter format round rename", 'there is none: docs/FROM.md, "What a program does"'),
    **words("recalc calculate calc run refresh", "cells are calculated when they are asked for: show RECT"),
    **words("diff difference", "compare S T RECT writes the cells that differ in two scenarios"),
}
"""Commands that others have, and what is here instead."""


def other_word(found: re.Match[str]) -> str | None:
    return OTHER_WORDS.get(found[1].lower())


def in_lower_case(found: re.Match[str]) -> str:
    return f"commands are in lower case: write {found['word'].lower()}"


def of_two(found: re.Match[str]) -> str:
    return f"it compares two, and - is the sheet as it is: write compare - {found[1]} {found[2]}"


def letters_first(found: re.Match[str]) -> str:
    return f"a cell is written by its column's letters and then its row: write {found[2].upper()}{found[1]}"


def rectangle(found: re.Match[str]) -> str:
    return f"a rectangle is written with a colon: write {found[1]} {found[2]}:{found[3]}"


def rectangle_wanted(found: re.Match[str]) -> str | None:
    """What to write for a name, or nothing, where a rectangle is wanted; an address with a wrong row has other hints."""
    if re.fullmatch(r"[A-Za-z]{0,3}[0-9]+(?:[A-Za-z]+[0-9]*)?", found[2] or ""):
        return None
    names = "" if found[2] in (None, "all", "sheet", "everything", "*") else "there are no names; "
    return f"{names}{found[1]} takes a rectangle: {found[1]} A1:H40" + (f"; {NO_FILES}" if found[1] == "export" and names else "")


def called(found: re.Match[str]) -> str:
    """What to write for a command with parentheses."""
    instead = OTHER_WORDS.get(found[1].lower(), "whatif --help lists the commands")
    return f"a command has no parentheses, and spaces between its words; {instead}"


NO_FILES = 'whatif writes no files: the replies go to standard output, and csvout in docs/FROM.md, "The command line", cuts an export out of them'
NOT_HERE = 'there is none: docs/FROM.md, "What a program does", says what to do instead'
COMMENT = "a comment begins with #, at the start of its line"
LINE_HINTS = (
    hint("\ufeff", "the line begins with a byte order mark: save the script as UTF-8 without one"),
    hint(r"[^\t]*\t", "words are parted by spaces, not by tabs"),
    hint(r"[^=']*[\u00a0\u2007\u2009\u202f]", "a space from a word processor parts no words: write a plain one"),
    hint(r" *(?://|;|--|/\*|%|REM\b|rem\b|!)", COMMENT),
    hint(r" +#", COMMENT),
    hint(rf" *(?i:force +)?(?=(?i:{WORDS})\b)(?!(?:{WORDS})\b)(?P<word>\w+)", in_lower_case),
    hint(rf" *(?:set +)?({CELL}) *= *(.*)", lambda found: f"write set {found[1]} {found[2]}, or set {found[1]} ={found[2]} for a formula"),
    hint(r" *(=.+)", lambda found: f"a formula goes into a cell: set A1 {found[1]}"),
    hint(rf" *({CELL})(?::({CELL}))? *$", lambda found: f"write show {found[0].strip()} to see it"),
    hint(rf" *(?:force +)?set +({CELL}):([^A-Za-z].*)", lambda found: f"write set {found[1]} {found[2]}"),
    hint(rf" *scenario +(\w+) +({CELL}) *= *(.+)", lambda found: f"write scenario {found[1]} {found[2]} {found[3]}"),
    hint(r" *scenario +(\w+) +=", lambda found: f"the cell stands before its value: scenario {found[1]} B1 5"),
    hint(rf" *(show|export|clear) +({CELL})(?:\.\.+|[-;,]| to )({CELL}) *$", rectangle),
    hint(r" *(show|export|clear)(?: +([A-Za-z_]\w*|\*))? *$", rectangle_wanted),
    hint(r" *(?i:new|reset|restart|close)\b", "there is none: each run begins with an empty sheet"),
    hint(r" *(?i:quit|exit|bye|q)\b", "there is no quit: the program ends with its input, at a terminal by Ctrl-D"),
    hint(r" *(?i:help|\?)", "whatif --help lists the commands"),
    hint(r" *(?:force +)?([A-Za-z]+)(?= |$)", other_word),
    hint(r" *(?i:save|open|load|undo|redo)\b", NOT_HERE),
    hint(r" *(?:export|show|changes|table|compare)\b.* (?:>|\S+\.[a-z]{2,4} *$)", NO_FILES),
    hint(rf" *(?:force +)?set +({ADDRESS}:{ADDRESS}) (.+)", one_cell),
    hint(rf" *(?:force +)?fill +({ADDRESS}:{ADDRESS})(?: +({ADDRESS}))? *$", source_first),
    hint(rf" *compare +(\w+) +({ADDRESS}(?::{ADDRESS})?) *$", of_two),
    hint(rf" *(scenario) +(\w+) +(\w+)( +{ADDRESS} .*)", one_word),
    hint(r" *(use|drop|as) +(\w+) +(\w+)() *$", one_word),
    hint(r" *(?:force +)?(?:set|scenario +\S+) +\S+ *$", "no content behind the address: clear A1 empties a cell, and set A1 ' puts an empty text"),
    hint(r" *(?:[a-z]+ +)+(?:[A-Z]+[1-9][0-9]*:)?R[0-9]+C[0-9]+", "a cell is written by its column's letters and its row: R2C3 is C2"),
    hint(r" *(?:[a-z]+ +)+([0-9]+)([A-Za-z]{1,3})(?= |$)", letters_first),
    hint(r" *(?:as|use|drop|base|scenario) +[^ ]*[^A-Za-z0-9_ ]", "a name is 1 to 32 of A-Z, a-z, 0-9 and _"),
    hint(r" *(?:show|export|clear) +\$?[A-Za-z]+:\$?[A-Za-z]+", "a rectangle has rows too: A1:A9"),
    hint(r" *(show|export|clear) +(\w+) +(\w+) *$", lambda found: f"write {found[1]} {found[2]}:{found[3]}"),
    hint(rf" *(?:force +)?(?:{WORDS}) +\[", "an address in a command has no brackets: write A1"),
    hint(r" *csv +\S+ *$", "behind the address comes the number of data lines: csv A1 3"),
    hint(r" *(?:force +)?([A-Za-z]+)(?= |$)", nearest),
    hint(rf" *force\b(?! +(?:{'|'.join(EDITS)})\b)", f"force stands before {', '.join(EDITS)} alone"),
    hint(r" *([A-Za-z]+) *\(", called),
    hint(r"[^#]* #", "a comment has a line of its own, which begins with #"),
    hint(r".* \$?[A-Za-z]+\$[0-9]", "addresses in commands have no $"),
    hint(r" *table +\w*[a-zA-Z_] +\w*[a-zA-Z_] *$", "table asks of cells, as table B4 B1 D2:D9; compare S T RECT compares two scenarios"),
    hint(r" *table\b", "XCOLUMN is a rectangle of one column, YROW one of one row, and F, R and C are cells"),
    hint(r'[^"]*"', "is it a line of CSV? A field with a line break takes several of the lines that csv counts"),
    hint(r".*,", "is it a line of CSV? csv ADDR LINES before it says how many lines are data"),
)


def line_hint(command: Command, forms: dict[str, list[str]]) -> str | None:
    """What to write instead of a line that is no command, and the forms of the command whose name it has."""
    first = command.text.split()[:1]
    name = "force" if first == ["force"] and command.name not in EDITS else command.name
    form = f"its form is {', or '.join(forms[name])}" if name in forms else None
    said = [part for part in (first_advice(LINE_HINTS, command.text), form) if part is not None]
    return "; ".join(said) or None


def name_hint(name: str, made: Collection[str]) -> str:
    """What to write instead of the name of a scenario that isn't there."""
    if not made:
        return BY_CODE["E10"]
    same = [f"capitals count: is {known} meant? " for known in made if known.lower() == name.lower()]
    near = [f"is {known} meant? " for known in get_close_matches(name, made, 1)]
    return f"{''.join((same or near)[:1])}the scenarios so far: {', '.join(sorted(made))}"
