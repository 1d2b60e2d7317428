"""Constants as scripts spell them: numbers, texts and truth values, plain ones mostly and the odd ones at the limits."""

from tests.differential.draft import Draft, Kind

MAX = 2**127 - 1
SMALL = [str(number) for number in range(-4, 13)]
HALVES = ["0.5", "1.5", "2.5", "-0.5", "-2.5", "3.5", "0.25", "0.125", "2.345", "1.005", "-1.25", "0.05", "12.5", "0.15"]
FRACTIONS = ["1/3", "-2/7", "5/4", "7/2", "1/6", "10/4", "-5/2"]
ODD = ["-0", "+5", "007", "0.000000000001", "0.0000000000001", "1.10", "00/7", "+1/2", "-0.0", "100000000000000000000"]
LIMITS = [
    str(MAX),
    str(-MAX),
    str(MAX - 1),
    f"1/{MAX}",
    f"-1/{MAX}",
    f"{MAX}/{MAX - 1}",
    f"{MAX}/2",
    str(2**126),
    str(-(2**126)),
    f"{2**126}/{2**126 - 1}",
    f"100/{MAX}",
    f"50/{MAX}",
    "1/" + "1" + "0" * 36,
    "0." + "0" * 37 + "1",
    "0." + "0" * 38 + "1",
    "1" + "0" * 38,
    "1" + "0" * 37,
    "1" + "0" * 38 + "." + "5" + "0" * 40,
    "0" * 60 + "7." + "25" + "0" * 60,
    "0.3333333333333333333333333",
]
NO_NUMBERS = [str(MAX + 1), f"1/{MAX + 1}", f"{MAX + 1}/{MAX + 1}", "1/0", "5.", ".5", "1e3", "--1", "1 ", "1/-2", "1.5/2", "12%", "1,5", "1/"]
TEXTS = ["a", "b", "ab", "abc", "low", "high", "x y", "é", "ä", "a\u0301", "😀", "\uffee", "5", "1/2", "TRUE", "a\"b", "<2", "=a", "c,d"]
ODD_TEXTS = ["true", "False", "a  b", "#N/A", "#CIRC!", "-", "'", "''x", "ok", '"', "\u00a0", "x\ry", "nan", "[.A1]", "E04"]
CRITERIA = ["=2", "<>1", "<3", "<=2.5", ">0", ">=1", "a", "<>a", "", "=", "<>", ">", "=TRUE", "<>TRUE", ">=b", "=<1", "<ab", "5", "1/2", "*"]


def number(draft: Draft) -> str:
    """A number as a constant spells it."""
    kinds = {"small": 62, "halves": 22, "fractions": 6, "odd": 4, "limits": 3, "random": 3}
    match draft.pick(kinds):
        case "small":
            return draft.one(SMALL)
        case "halves":
            return draft.one(HALVES)
        case "fractions":
            return draft.one(FRACTIONS)
        case "odd":
            return draft.one(ODD)
        case "limits":
            return draft.one(LIMITS)
    return f"{draft.random.randint(-999, 999)}.{draft.random.randint(0, 999)}"


def text(draft: Draft) -> str:
    """A text without line breaks."""
    return draft.one(TEXTS if draft.chance(85) else ODD_TEXTS + NO_NUMBERS)


def truth(draft: Draft) -> str:
    return draft.one(["TRUE", "FALSE"])


def kind(draft: Draft) -> Kind:
    return draft.pick({"number": 70, "text": 20, "truth": 10})


def imported(draft: Draft, wanted: Kind) -> str:
    """A constant as a field or a replacement spells it."""
    return {"number": number, "text": text, "truth": truth}[wanted](draft)


def content(draft: Draft, wanted: Kind) -> str:
    """A constant as `set` spells it. A number and the text that spells it both occur."""
    if wanted == "text":
        if draft.chance(12):
            return "'" + number(draft)
        return ("'" if draft.chance(80) else "") + text(draft)
    return imported(draft, wanted)


class Table:
    """The data lines of a `csv`: fields in odd quoting, records with any line end."""

    def __init__(self, draft: Draft, odd: bool) -> None:
        self.draft = draft
        self.odd = odd

    def field(self) -> tuple[bytes, Kind | None]:
        """A field as it is spelled, and the kind of what it puts."""
        draft = self.draft
        if draft.chance(12):
            return draft.one([b"", b'""']), None
        wanted = kind(draft)
        spelled = imported(draft, wanted)
        if self.odd and draft.chance(45):
            return self.odd_field(spelled), "text"
        if '"' in spelled[:1] or "," in spelled or "\r" in spelled or draft.chance(15):
            spelled = '"' + spelled.replace('"', '""') + '"'
        return spelled.encode(), wanted

    def odd_field(self, spelled: str) -> bytes:
        draft, plain = self.draft, spelled.encode()
        return draft.one(
            [
                b'"' + plain + b'"x',
                b'"' + plain + b'"2',
                b'"' + plain + b'" ',
                b'"a"b"c"',
                b'"1"2"3"',
                b'a"b',
                b' "x"',
                b'"a\nb"',
                b'"a\r\nb,c"',
                b'"x\ry"',
                b'"say ""hi"""',
                b'""""',
                b'"""',
                b'""5',
                b'" 5"',
                b" 5",
                b"5 ",
                b"=1+1",
                b"'x",
                b"x\x00y",
                "é".encode(),
            ]
        )

    def records(self, rows: int, columns: int) -> tuple[bytes, list[list[Kind | None]]]:
        """The data, and the kinds of its fields."""
        draft = self.draft
        end = draft.pick({b"\n": 70, b"\r\n": 20, b"\r": 4})
        data, kinds = b"", []
        for _ in range(rows):
            fields = [self.field() for _ in range(max(1, columns - (draft.random.randint(0, 2) if self.odd else 0)))]
            data += b",".join(spelled for spelled, _ in fields) + end
            kinds.append([found for _, found in fields])
            if self.odd and draft.chance(10):
                data += draft.one([b"\n", b"\r\n", b"\r", b" \n", b",\n"])
        if self.odd and draft.chance(8):
            data = b"\xef\xbb\xbf" + data
        if self.odd and draft.chance(4):
            data += draft.one([b"\xff\n", b"ab,\xc3\n", b'"\xf0\x9f"\n', b"x" * 32_768 + b"\n", b"x" * 32_767 + b"\n", b"x" * 65_537 + b"\n"])
        if self.odd and draft.chance(6):
            data += b'"never closed\n'
        return data if data.endswith(b"\n") else data + b"\n", kinds
