"""Scripts that are made for measurements, as lists of lines."""


def chain(length: int) -> list[str]:
    """A1 is 1, and each cell below it is one more than the cell above."""
    return ["set A1 1"] + [f"set A{row} =[.A{row - 1}]+1" for row in range(2, length + 1)]


def asked(formula_cell: str) -> str:
    """The formula cell's value with C1 in the place of B1, and with C2 in its place, added."""
    return "=" + "+".join(f"MULTIPLE.OPERATIONS([.{formula_cell}];[.B1];[.{by}])" for by in ("C1", "C2"))


def what_ifs(depth: int) -> list[str]:
    """What-ifs through each other: each asks the one above it twice."""
    head = ["set B1 1", "set C1 =[.B1]+1", "set C2 =1+[.B1]", "set D1 " + asked("B1")]
    return head + [f"set D{row} {asked(f'D{row - 1}')}" for row in range(2, depth + 1)]


def cells(column: str, first: int, count: int) -> list[str]:
    """So many cells of a column, from a row on, with 1 and so on."""
    return [f"set {column}{first + row} {row + 1}" for row in range(count)]


def repeated(count: int, *lines: str) -> list[str]:
    """The lines so many times, and in them the number of the time, from 1 on, where `#` stands."""
    return [line.replace("#", str(time)) for time in range(1, count + 1) for line in lines]


def numbers(length: int) -> list[str]:
    """A column of numbers."""
    return cells("A", 1, length)


def table(formulas: int, entries: int) -> list[str]:
    """A model of so many formulas over the input B1, and so many cells that each ask it for another input."""
    model = ["set B1 1", "set A1 =[.B1]*2"] + [f"set A{row} =[.A{row - 1}]+[.B1]" for row in range(2, formulas + 1)]
    return model + cells("C", 1, entries) + [
        f"set D{row} =MULTIPLE.OPERATIONS([.A{formulas}];[.B1];[.C{row}])" for row in range(1, entries + 1)]


def grid(columns: str, rows: int) -> list[str]:
    """Formulas that nothing else asks for, in so many columns of so many rows."""
    return [f"set {column}{row} ={row}+1" for row in range(1, rows + 1) for column in columns]


def model_with_if(formulas: int, entries: int) -> list[str]:
    """As `table`, but each formula of the model has five operators and references, and an IF."""
    model = ["set B1 1", "set A1 =[.B1]*2"] + [
        f"set A{row} =IF([.A{row - 1}]>1000;[.A{row - 1}]-[.B1]*2;[.A{row - 1}]+[.B1]*3)" for row in range(2, formulas + 1)]
    return model + table(formulas, entries)[formulas + 1:]


def each(count: int, column: str, formula: str) -> list[str]:
    """So many cells of a column with a formula, in which `#` stands for the row, and then all of them shown."""
    return repeated(count, f"set {column}# {formula}") + [f"show {column}1:{column}{count}"]


def csv(columns: int, rows: int) -> list[str]:
    """A table of numbers, and texts in the last column, as a command with its data lines."""
    line = ",".join(["{0}.25"] * (columns - 1) + ['"part {0}, a"'])
    return [f"csv A1 {rows}"] + [line.format(row) for row in range(1, rows + 1)]


def edits(count: int) -> list[str]:
    """So many edits of a hundred cells by one session."""
    return [f"set A{row % 100 + 1} {row}" for row in range(1, count + 1)]


def edits_in_turn(count: int) -> list[str]:
    """So many edits by two sessions in turn, each of a hundred cells of its own."""
    return [line for row in range(1, count // 2 + 1) for name, column in (("ana", "A"), ("bo", "B"))
            for line in (f"as {name}", f"set {column}{row % 100 + 1} {row}")]


def fills_in_turn(count: int) -> list[str]:
    """So many fills of four cells by two sessions in turn, each below the session's last, beside the other's."""
    return ["set Z1 1"] + [line for row in range(1, count // 2 + 1) for name, area in (("ana", f"A{row}:D{row}"), ("bo", f"F{row}:I{row}"))
                           for line in (f"as {name}", f"fill Z1 {area}")]


def edits_with_looks(count: int, often: int) -> list[str]:
    """So many edits by two sessions in turn, all of the same hundred cells; each looks after so many edits of its own."""
    lines: list[str] = []
    for row in range(1, count // (2 * often) + 1):
        for name in ("ana", "bo"):
            lines += [f"as {name}", "changes"] + [f"set A{(row + more) % 100 + 1} {row}" for more in range(often)]
    return lines


def column(name: str, first: int, rows: int) -> list[str]:
    """A csv command that puts a number into each of so many rows of a column."""
    return [f"csv {name}{first} {rows}"] + [str(row) for row in range(1, rows + 1)]


def filled(content: str) -> list[str]:
    """65,536 cells of a column with one content, by a fill."""
    return [f"set B1 {content}", "fill B1 B1:B65536"]


def replaced(name: str, by: int) -> list[str]:
    """A scenario with as many replacements as one may have, each by its row and this much more."""
    return [f"scenario {name} A{row} {row + by}" for row in range(1, 257)]
