"""Random scripts of all commands on a little area, so that their lines bear on one another.

A script is drawn from a random number generator that its seed and number begin, so that it is the same each time.
"""

from collections.abc import Callable
from random import Random

from tests.differential import contents
from tests.differential.draft import Area, Cell, Draft, Kind, letters, word
from tests.differential.formulas import Formulas
from whatif_tools.sheet import COLUMNS, ROWS

NAMES = ["s", "t", "u", "v"]
SESSIONS = ["main", "ana", "bo"]

# How often each command comes, by what the script is about.
USUAL = {
    "constant": 12, "formula": 14, "clear": 2, "fill": 4, "table_in": 2, "show": 9, "show_all": 2, "export": 1.5, "changes": 4, "compare": 1, "table": 2,
    "scenario": 2, "base": 0.5, "use": 1, "drop": 0.4, "session": 1, "print": 2, "remark": 1, "chain": 0.5, "crowd": 0.03, "odd_line": 1.5, "broken": 1,
    "large": 0.5, "cycle": 1, "blank": 1.5, "same_text": 1,
}
THEMES: dict[str, tuple[float, dict[str, float]]] = {
    "model": (4, {"formula": 22, "constant": 16}),
    "what-ifs": (5, {"formula": 24, "constant": 14, "table": 7, "clear": 3, "cycle": 2}),
    "scenarios": (5, {"scenario": 16, "base": 6, "use": 8, "drop": 3, "compare": 9, "cycle": 2, "formula": 12, "changes": 6}),
    "sessions": (4, {"session": 14, "changes": 14, "use": 4, "scenario": 5, "same_text": 4, "base": 2}),
    "tables in": (3, {"table_in": 12, "export": 6, "print": 4, "show": 6, "formula": 8}),
    "cycles": (2, {"cycle": 9, "scenario": 4, "use": 3, "table": 4, "changes": 6}),
    "spelling": (1, {"odd_line": 12, "broken": 9, "large": 4, "blank": 4}),
    "wide": (1.5, {"chain": 5, "fill": 9, "large": 3, "clear": 4}),
}
ODD_ADDRESSES = ["A0", "a01", "1A", "A", "7", "A1:B", ":A1", "A1:", "A-1", "$A$1", "A1:B2:C3", "XFE1", "A1048577", "XFE1048577", "ZZZZ1", "A99999999999", "é1"]
ODD_LINES = [
    b"frob", b"SHOW A1", b"set", b"set A1", b"set A1 ", b"set  A1 5", b"set A1  5", b" set A1 5", b"show", b"show A1 B1", b"clear", b"fill A1",
    b"fill A1 B1 C1",
    b"csv", b"csv A1", b"csv A1 x", b"csv A1 1000001", b"csv A1 00000001", b"csv A1 0", b"force", b"force show A1", b"force  set A2 1", b" force set A2 1",
    b"force force set A1 1", b"force set A1", b"force clear", b"changes A1", b"changes ", b"use s t", b"use  ", b"as", b"as a b", b"as a-b",
    b"as 123456789012345678901234567890123", b"as _", b"scenario", b"scenario s", b"scenario s-t A1 1", b"scenario s A1", b"scenario s A1 ",
    b"scenario s A1  ", b"scenario s A1 '", b"scenario s A1 =1", b"scenario t  A1 5", b"base", b"base s", b"base s t u", b"base - s", b"base s s", b"drop",
    b"drop -", b"drop s t", b"compare s t", b"compare - - A1", b"compare - s A1:B2:C3", b"compare . - A1", b"table B2 B1 A1:B2", b"table B2 B1", b"table B2",
    b"table A1 A1 A1:A2 A1 A1:A2", b"table A1 A1 A1:A2 A1 A1:B1", b"table A1 A1 A1 A1", b"table XFE1 A1 A1:B2", b"table A1 A1 A1:XFE1",
    b"table A1 A1 A1:A3000 B1 A1:Z1", b"formula", b"formula A1:A1", b"formula XFD1048576", b"show A1:XFD1048576", b"show A1:XFD5", b"export A1:B40000",
    b"compare - - A1:XFD4", b"compare no no A1:XFD5", b"fill A1 A1:XFD1048576", b"clear A1:XFE1", b"#", b"# set A1 1", b" # set A1 1", b"   ", b"\r", b"\r\r",
    b"show A1\r", b"set A1 5\r\r", b"\xff", b"#\xff", b"set A1 \xc3", b"show \xe2\x82", b"\xef\xbb\xbfshow A1", b"show\tA1", b"set A1 '\t", b"csv \xff 0",
    b"show A1:A1", b"show B2:A1", b"show a1:b2", b"set a1 '=x", b"set A1 of:=2", b"set A1 of:2", b"set A1 OF:=2", b"scenario S A1 1", b"use S", b"drop S",
]  # fmt: skip


class Commands:
    """Makes the lines of a script, one command after another."""

    def __init__(self, draft: Draft, what_ifs: float) -> None:
        self.draft = draft
        self.formulas = Formulas(draft, what_ifs)
        self.current = "main"
        self.unseen: set[str] = set()
        """The sessions that others have edited the sheet of since they last asked for changes."""
        self.makers: dict[str, Callable[[], bytes]] = {
            "constant": self.constant, "formula": self.formula, "clear": self.clear, "fill": self.fill, "table_in": self.table_in, "show": self.show,
            "show_all": self.show_all, "export": self.export, "changes": self.changes, "compare": self.compare, "table": self.table,
            "scenario": self.scenario, "base": self.base, "use": self.use, "drop": self.drop, "session": self.session, "print": self.print,
            "remark": self.remark, "chain": self.chain, "crowd": self.crowd, "odd_line": self.odd_line, "broken": self.broken, "large": self.large,
            "cycle": self.cycle, "blank": self.blank, "same_text": self.same_text,
        }  # fmt: skip

    def make(self, name: str) -> bytes:
        return self.makers[name]()

    # ---- words

    def rectangle(self, area: Area) -> str:
        draft = self.draft
        corners = [(area.top, area.left), (area.bottom, area.right)]
        if draft.chance(5):
            corners.reverse()
        if draft.chance(5):
            corners = [(corners[0][0], corners[1][1]), (corners[1][0], corners[0][1])]
        if area.rows * area.columns == 1 and draft.chance(80):
            return word(corners[0])
        return f"{word(corners[0])}:{word(corners[1])}"

    def line(self, *words: str) -> bytes:
        return " ".join(words).encode() + b"\n"

    def scenario_name(self) -> str:
        """A scenario that is there, mostly."""
        draft = self.draft
        return draft.one(draft.scenarios) if draft.scenarios and draft.chance(95) else draft.one(NAMES)

    # ---- edits

    def edit(self, *words: str) -> bytes:
        """An edit, forced where it would else be refused, mostly."""
        draft = self.draft
        if self.current in self.unseen:
            forced = draft.chance(45)
        else:
            forced = draft.chance(2)
        self.unseen |= {session for session in draft.sessions if session != self.current}
        return self.line(*(["force"] if forced else []), *words)

    def constant(self) -> bytes:
        draft = self.draft
        cell = draft.filled() if draft.chance(45) else draft.cell()
        if cell in draft.named and draft.chance(70):
            cell = draft.cell()
        wanted = draft.kinds.get(cell, contents.kind(draft)) if draft.chance(80) else contents.kind(draft)
        draft.put(cell, wanted)
        return self.edit("set", word(cell), contents.content(draft, wanted))

    def formula(self) -> bytes:
        draft = self.draft
        cell = draft.far_from_inputs()
        wanted = draft.pick({"number": 78, "text": 11, "truth": 11})
        formula = self.formulas.formula(cell, wanted)
        draft.put(cell, wanted, self.formulas.named)
        return self.edit("set", word(cell), formula)

    def broken(self) -> bytes:
        draft = self.draft
        cell = draft.cell()
        if draft.chance(30):
            return self.edit("set", word(cell), "'" + draft.one(["x" * 32_767, "x" * 32_768, "é" * 16_384, "9" * 32_768]))
        return self.edit("set", word(cell), self.formulas.broken())

    def clear(self) -> bytes:
        draft = self.draft
        area = draft.inner(draft.area, *draft.one([(1, 1), (1, 1), (2, 2), (4, 3)]))
        for cell in area.cells():
            draft.put(cell, None)
        return self.edit("clear", self.rectangle(area))

    def fill(self) -> bytes:
        """A fill along a column or a row, from a formula mostly."""
        draft = self.draft
        source = draft.formula_cell() if draft.chance(75) else draft.filled() if draft.chance(85) else draft.cell()
        whole = draft.area
        far = draft.inner(whole, *draft.one([(4, 1), (1, 4), (3, 3)]))
        down = Area(source[0], source[1], whole.bottom - source[0] + 1, 1)
        across = Area(source[0], source[1], 1, whole.right - source[1] + 1)
        area = draft.pick({down: 5, across: 4, far: 2})
        for cell in area.cells():
            draft.copy(source, cell)
        return self.edit("fill", word(source), self.rectangle(area))

    def chain(self) -> bytes:
        """A long chain of references down a column or along a row, beside the area."""
        draft = self.draft
        length = draft.random.randint(10, 50)
        first = draft.area.bottom, draft.area.right
        if first[0] + length >= ROWS or first[1] + length >= COLUMNS:
            return self.show_all()
        down = draft.chance(50)
        second = (first[0] + 1, first[1]) if down else (first[0], first[1] + 1)
        end = (first[0] + length, first[1]) if down else (first[0], first[1] + length)
        lines = self.edit("set", word(second), f"=[.{word(first)}]+{draft.one(['1', '0.5', '1/3'])}")
        lines += self.edit("fill", word(second), f"{word(second)}:{word(end)}")
        lines += self.line("show", word(end))
        if draft.chance(50):
            lines += self.edit("set", word(first), contents.number(draft)) + self.line("changes")
            draft.put(first, "number")
        return lines

    def cycle(self) -> bytes:
        """Closes a cycle of two cells, or opens one by a constant."""
        draft = self.draft
        cell = draft.formula_cell()
        if cell in draft.named and draft.named[cell] and draft.chance(65):
            other = draft.one(draft.named_by(cell))
            formula = draft.one([f"=[.{word(cell)}]", f"=[.{word(cell)}]+1", f"=IF(TRUE();1;[.{word(cell)}])", f"=IFERROR([.{word(cell)}];2)"])
            lines = self.edit("set", word(other), formula) + self.look()
            if draft.chance(70):
                draft.put(other, "number")
                lines += self.edit("set", word(other), contents.number(draft)) + self.look()
            else:
                draft.put(other, "number", [cell])
            return lines
        draft.put(cell, "number")
        return self.edit("set", word(cell), contents.number(draft)) + self.look()

    def same_text(self) -> bytes:
        """A value of another kind with the same text, between two looks."""
        draft = self.draft
        cell = draft.cell()
        first, second = draft.one([("5", "'5"), ("'TRUE", "TRUE"), ("'0.5", "0.5"), ("1.0", "'1"), ("'", "=[.XFD1]&\"\""), ("=1/0", "'#DIV/0!"), ("'a", "b")])
        if draft.chance(50):
            first, second = second, first
        draft.put(cell, "text")
        looks = self.line("changes") if draft.chance(80) else self.look()
        return self.edit("set", word(cell), first) + looks + self.edit("set", word(cell), second) + self.line("changes")

    def table_in(self) -> bytes:
        """A `csv` and its data lines."""
        draft = self.draft
        odd = draft.chance(50)
        area = draft.inner(draft.area, 4, 4)
        data, kinds = contents.Table(draft, odd).records(area.rows, area.columns)
        for down, record in enumerate(kinds):
            for right, kind in enumerate(record):
                draft.put((area.top + down, area.left + right), kind)
        count = data.count(b"\n")
        if draft.chance(2):
            count = max(0, count + draft.one([-1, 1, 2]))
        return self.edit("csv", word((area.top, area.left)), str(count)) + data

    # ---- looks

    def look(self) -> bytes:
        return self.make(self.draft.pick({"show": 3, "show_all": 2, "changes": 3, "compare": 1, "export": 0.5, "table": 1}))

    def show(self) -> bytes:
        draft = self.draft
        if draft.chance(40):
            return self.line("show", word(draft.formula_cell()))
        return self.line("show", self.rectangle(draft.inner(draft.area, 3, 3)))

    def show_all(self) -> bytes:
        return self.line("show", self.rectangle(self.draft.area))

    def export(self) -> bytes:
        return self.line("export", self.rectangle(self.draft.inner(self.draft.area, 5, 5)))

    def changes(self) -> bytes:
        self.unseen.discard(self.current)
        return self.line("changes")

    def compare(self) -> bytes:
        draft = self.draft
        sides = [("-" if draft.chance(35) else self.scenario_name()) if draft.scenarios else "-" for _ in range(2)]
        area = draft.area if draft.chance(60) else draft.inner(draft.area, 3, 3)
        return self.line("compare", *sides, self.rectangle(area))

    def input_of(self, cell: Cell) -> Cell:
        inputs = self.draft.named_by(cell)
        return self.draft.one(inputs) if inputs and self.draft.chance(90) else self.draft.cell()

    def table(self) -> bytes:
        draft = self.draft
        formula_cell = draft.formula_cell() if draft.chance(92) else draft.cell()
        column = draft.inner(draft.area, 4, 1)
        words = [word(formula_cell), word(self.input_of(formula_cell)), self.rectangle(column)]
        if draft.chance(45):
            words += [word(self.input_of(formula_cell)), self.rectangle(draft.inner(draft.area, 1, 3))]
        return self.line("table", *words)

    def print(self) -> bytes:
        draft = self.draft
        return self.line("formula", word(draft.formula_cell() if draft.chance(65) else draft.filled()))

    # ---- scenarios and sessions

    def scenario(self) -> bytes:
        draft = self.draft
        name = draft.one(NAMES)
        if draft.chance(15):
            return self.line("scenario", self.scenario_name(), word(draft.filled())) if draft.scenarios else self.show()
        if name not in draft.scenarios:
            draft.scenarios.append(name)
        cell = draft.pick({draft.filled(): 6, draft.cell(): 3, draft.formula_cell(): 2})
        if draft.replaced and draft.chance(30):
            cell = draft.one(draft.replaced)
        elif draft.named and draft.chance(40):
            cell = self.input_of(draft.formula_cell())
        draft.replaced.append(cell)
        kind = draft.kinds.get(cell, contents.kind(draft)) if draft.chance(85) else contents.kind(draft)
        return self.line("scenario", name, word(cell), contents.imported(draft, kind))

    def base(self) -> bytes:
        draft = self.draft
        if len(draft.scenarios) < 2:
            return self.scenario()
        if draft.chance(12):
            return self.line("base", self.scenario_name())
        first, second = sorted(draft.random.sample(draft.scenarios, 2))
        if draft.chance(12):
            first, second = second, first
        return self.line("base", first, second)

    def use(self) -> bytes:
        draft = self.draft
        if not draft.scenarios or draft.chance(20):
            return self.line("use")
        return self.line("use", self.scenario_name()) + (self.look() if draft.chance(60) else b"")

    def drop(self) -> bytes:
        draft = self.draft
        if not draft.scenarios or draft.chance(50):
            return self.scenario()
        name = self.scenario_name()
        if draft.chance(60) and name in draft.scenarios:
            draft.scenarios.remove(name)
        return self.line("drop", name)

    def session(self) -> bytes:
        draft = self.draft
        name = draft.one(SESSIONS)
        self.current = name
        if name not in draft.sessions:
            draft.sessions.append(name)
            self.unseen.add(name)
        lines = self.line("as", name)
        return lines + self.changes() if draft.chance(65) else lines

    def crowd(self) -> bytes:
        """As many sessions, scenarios or replacements as there may be, and one or two more."""
        draft = self.draft
        match draft.random.randrange(3):
            case 0:
                lines = b"".join(self.line("as", f"p{at}") for at in range(64)) + self.line("as", "main")
                self.current = "main"
                return lines + self.changes()
            case 1:
                return b"".join(self.line("scenario", f"n{at}", "A1", "1") for at in range(65)) + self.line("scenario", "n1", "A2", "2")
        name, column = draft.one(NAMES), letters(draft.area.left)
        return b"".join(self.line("scenario", name, f"{column}{at}", str(at)) for at in range(1, 258)) + self.line("scenario", name, f"{column}7", "8")

    # ---- lines that are odd

    def remark(self) -> bytes:
        return self.draft.one([b"# a remark\n", b"#\n", b"# set A1 1\n", b"#\r\n"])

    def blank(self) -> bytes:
        return self.draft.one([b"\n", b"  \n", b"\r\n", b" \r\n"])

    def odd_line(self) -> bytes:
        """A line that is mostly refused: a listed one, an odd address, or a usual line with a word or a byte changed."""
        draft = self.draft
        match draft.pick({"listed": 5, "address": 2, "changed": 4, "long": 0.15}):
            case "listed":
                return draft.one(ODD_LINES) + b"\n"
            case "address":
                return self.line(*draft.one([("show",), ("clear",), ("formula",), ("fill", "A1"), ("table", "A1", "A1")]), draft.one(ODD_ADDRESSES))
            case "long":
                longest = [b"#" + b"x" * 65_535, b"#" + b"x" * 65_536, b" " * 65_535 + b"\r", b" " * 65_536 + b"\r", b"csv A1 1" + b" " * 65_530]
                return draft.one(longest) + b"\n"
        line = self.make(draft.one(["constant", "clear", "fill", "show", "compare", "table", "scenario", "base", "use", "session", "export", "print"]))
        return self.changed(line.split(b"\n")[0]) + b"\n"

    def changed(self, line: bytes) -> bytes:
        draft = self.draft
        words = line.split(b" ")
        at = draft.random.randrange(len(words))
        match draft.random.randrange(6):
            case 0:
                del words[at]
            case 1:
                words.insert(at, words[at])
            case 2:
                words[at] = draft.one([b"", b"A1", b"-", b"s", b"A1:B2", b"XFE1", b"0", b"set", b"\xff", "é".encode()])
            case 3:
                words.append(draft.one([b"", b" ", b"A1", b"x", b"\r"]))
            case 4:
                words[at] = words[at].swapcase()
            case 5:
                place = draft.random.randrange(len(line) + 1)
                return line[:place] + bytes([draft.random.randrange(256)]).replace(b"\n", b"\r") + line[place + draft.random.randint(0, 1) :]
        return b" ".join(words)

    def large(self) -> bytes:
        """Commands on the far ends of the sheet, and on large parts of it."""
        draft = self.draft
        cell = draft.cell()
        self.unseen |= {session for session in draft.sessions if session != self.current}
        return draft.one(
            [
                b"set XFD1048576 5\nshow XFD1048575:XFD1048576\n",
                b"set XFD1 =[.A1]\nfill XFD1 XFD1:XFD3\nshow XFD1:XFD3\n",
                b"fill XFD1048576 XFC1048575:XFD1048576\n",
                b"set B2 =[.A1]\nfill B2 A1:B2\n",
                b"csv XFD1048576 1\n1,2\n",
                b"csv XFD1048576 2\n1\n2\n",
                b"csv XFD1048576 1\n7\n",
                b"csv XFC1048576 1\n7,\n",
                b"clear B3:XFD1048576\n",
                b"clear A1:XFD1048576\n",
                b"clear XFD1048576:XFC1\n",
                b"set XFD1048575 =SUM([.A1:.XFC1048575])\nshow XFD1048575\n",
                b"set XFD1048574 =COUNTA([.A1:.A1048576])+MATCH(5;[.A1:.A1048576])\nshow XFD1048574\n",
                b"set XFD2 =SUMIF([.A1:.B1048576];\">0\";[.B1:.C1048576])\nshow XFD2\n",
                b"set XFC2 =SUMPRODUCT([.A1:.A1048576];[.B1:.B1048576])\nshow XFC2\n",
                b"set XFC3 =VLOOKUP(2;[.A1:.XFB1048576];2)&INDEX([.A1:.XFB1048576];2;16382)\nshow XFC3\n",
                self.line("set", "AA100", f"=SUM([.A1:.Z99])+[.{word(cell)}]") + b"show AA100\n",
                self.line("fill", word(cell), "XFC1048570:XFD1048576") + b"export XFC1048575:XFD1048576\n",
                self.line("table", word(draft.formula_cell()), word(cell), "XFD1048575:XFD1048576"),
            ]
        )


class ScriptMaker:
    """Makes one script."""

    def __init__(self, random: Random, lines: int) -> None:
        self.random = random
        self.lines = lines

    def area(self) -> Area:
        """The upper left corner of the sheet mostly, or any other place, also at its far end."""
        rows, columns = self.random.randint(4, 8), self.random.randint(3, 6)
        corners = [(0, 0), (7, 24), (99, 700), (ROWS - rows, 0), (0, COLUMNS - columns), (ROWS - rows, COLUMNS - columns)]
        top, left = self.random.choices(corners, [40, 2, 2, 1, 1, 1])[0]
        return Area(top, left, rows, columns)

    def script(self) -> bytes:
        area = self.area()
        draft = Draft(self.random, area, self.random.random() < 0.85, self.random.random() < 0.85)
        theme = draft.pick({name: weight for name, (weight, _) in THEMES.items()})
        commands = Commands(draft, what_ifs=3 if theme == "what-ifs" else 1)
        parts = [self.opening(commands, draft)]
        weights = {**USUAL, **THEMES[theme][1]}
        count = self.random.randint(self.lines // 2, self.lines + self.lines // 2) - parts[0].count(b"\n")
        parts += [commands.make(draft.pick(weights)) for _ in range(max(count, 5))]
        parts += [commands.show_all(), commands.line("changes")]
        script = b"".join(parts)
        if draft.chance(3):
            script = script.replace(b"\n", b"\r\n")
        if draft.chance(3):
            script += draft.one([b"csv A1 2\n1\n", b"force csv B2 1\n", b"csv A0 3\n1\n", b"csv XFE1 2\n1,2\n", b"csv A1 2\n\n"])
        return script.removesuffix(b"\n") if draft.chance(20) else script

    def opening(self, commands: Commands, draft: Draft) -> bytes:
        """A small sheet of constants near the first cells, and formulas."""
        parts = []
        for _ in range(self.random.randint(2, 7)):
            parts.append(self.first_constant(commands, draft))
        if draft.chance(30):
            parts.append(commands.table_in())
        parts += [commands.formula() for _ in range(self.random.randint(1, 4))]
        return b"".join(parts)

    def first_constant(self, commands: Commands, draft: Draft) -> bytes:
        cell = min((draft.cell() for _ in range(2)), key=lambda cell: sum(area.rows * area.columns for area in draft.before(cell)))
        kind: Kind = contents.kind(draft)
        draft.put(cell, kind)
        return commands.edit("set", word(cell), contents.content(draft, kind))


def script(seed: int, number: int, lines: int = 40) -> bytes:
    """The script of this number in the run of this seed, of about so many lines."""
    return ScriptMaker(Random(f"{seed}:{number}"), lines).script()
