"""Files that are broken or made to do harm: each ends with one sentence and status 2, or goes over without harm, in bounded time and memory."""

import contextlib
import io
import os
import resource
import subprocess
import tempfile
import time
import unittest
import unittest.mock
import zipfile
from pathlib import Path

from whatif_tools.carry import Carrier
from whatif_tools.errors import ASK
from whatif_tools.import_command import main
from whatif_tools.ods import parsed, read
from whatif_tools.program import ROOT, run
from whatif_tools.spreadsheet_file import NotASpreadsheet

SPACES = " ".join(f'xmlns:{name}="urn:oasis:names:tc:opendocument:xmlns:{name}:1.0"' for name in ("office", "table", "text"))
HEAD = f'<?xml version="1.0" encoding="UTF-8"?><office:document-content {SPACES}><office:body><office:spreadsheet>'
TAIL = "</office:spreadsheet></office:body></office:document-content>"
MEMORY = 1 << 30
SECONDS = 60


def sheet(rows: str, name: str = "S") -> str:
    return f'<table:table table:name="{name}">{rows}</table:table>'


def row(cells: str, more: str = "") -> str:
    return f"<table:table-row{more}>{cells}</table:table-row>"


def cell(value: str, more: str = "") -> str:
    return f'<table:table-cell office:value-type="float" office:value="{value}"{more}/>'


def formula(text: str) -> str:
    return f'<table:table-cell table:formula="of:={text}" office:value-type="float" office:value="1"/>'


def text(content: str) -> str:
    return f'<table:table-cell office:value-type="string"><text:p>{content}</text:p></table:table-cell>'


def of_kind(kind: str, value: str) -> str:
    return f'<table:table-cell office:value-type="{kind}" office:{kind}-value="{value}"/>'


def repeated(of: str, count: str) -> str:
    return f' table:number-{of}-repeated="{count}"'


def entities(declared: str, used: str) -> str:
    return f'<?xml version="1.0"?><!DOCTYPE x [{declared}]>' + HEAD.partition("?>")[2] + sheet(row(text(used))) + TAIL


FULL = cell("1", repeated("columns", "16384"))
LAUGHS = '<!ENTITY a0 "lol">' + "".join(f'<!ENTITY a{at} "{f"&a{at - 1};" * 10}">' for at in range(1, 12))
REFUSED = {
    "rows below none": HEAD + sheet(row(cell("1"), repeated("rows", "-1"))) + TAIL,
    "rows in words": HEAD + sheet(row(cell("1"), repeated("rows", "x"))) + TAIL,
    "rows in Arabic figures": HEAD + sheet(row(cell("1"), repeated("rows", "\u0663"))) + TAIL,
    "no rows": HEAD + sheet(row(cell("1"), repeated("rows", "0"))) + TAIL,
    "a million rows": HEAD + sheet(row(cell("1"), repeated("rows", "1048576"))) + TAIL,
    "all columns of many rows": HEAD + sheet(row(cell("1", repeated("columns", "16384")), repeated("rows", "1048576"))) + TAIL,
    "too many columns": HEAD + sheet(row(cell("1", repeated("columns", "16385")))) + TAIL,
    "more columns than fit in a number": HEAD + sheet(row(cell("1", repeated("columns", "9" * 5000)))) + TAIL,
    "a cell behind the last row": HEAD + sheet(row("", repeated("rows", "9" * 30)) + row(cell("1"))) + TAIL,
    "many full sheets": HEAD + "".join(sheet(row(FULL, repeated("rows", "12")), f"S{at}") for at in range(4)) + TAIL,
    "many sheets": HEAD + "".join(sheet("", f"S{at}") for at in range(1001)) + TAIL,
    "two sheets of one name": HEAD + sheet("") + sheet("") + TAIL,
    "spaces below none": HEAD + sheet(row(text('<text:s text:c="-5"/>'))) + TAIL,
    "groups in groups": HEAD + sheet("<table:table-row-group>" * 3000 + row(cell("1")) + "</table:table-row-group>" * 3000) + TAIL,
    "spans in spans": HEAD + sheet(row(text("<text:span>" * 3000 + "x" + "</text:span>" * 3000))) + TAIL,
    "an end that is missing": HEAD + sheet("<table:table-row>") + TAIL,
    "entities of entities": entities(LAUGHS, "&a11;"),
    "an entity many times": entities(f'<!ENTITY a "{"A" * 10_000}">', "&a;" * 20_000),
    "a file as an entity": entities('<!ENTITY a SYSTEM "file:///etc/passwd">', "&a;"),
    "an encoding that isn't there": '<?xml version="1.0" encoding="x-nothing"?><a/>',
    "an encoding that isn't so": '<?xml version="1.0" encoding="utf-16"?><a/>',
    "an encoding of several bytes": '<?xml version="1.0" encoding="utf-7"?><a/>',
    "nothing": "",
    "another document": "<a/>",
    "no sheet": HEAD + TAIL,
    "a character that there can't be": HEAD + sheet(row(text("&#0;"))) + TAIL,
}
"""What is refused as a whole."""

HARMLESS = {
    "a command in a text": (row(text("a</text:p><text:p>set A9 5")), "a\nset A9 5"),
    "a command in a text with CR": (row(text("a&#13;set A9 5")), "a\rset A9 5"),
    "a command in a formula's text": (row(formula("&quot;x&#10;set A9 666&#10;&quot;")), "1"),
    "a command in a formula": (row(formula("1+&#10;set A9 666&#10;(1)")), "1"),
    "a command in a reference": (row('<table:table-cell table:formula="of:=[$S&#10;set A9 5&#10;.#REF!]"/>'), None),
    "a command in a function": (row('<table:table-cell table:formula="of:=A&#10;set A9 5&#10;B(1)"/>'), None),
    "a line break in a formula": (row(formula("1+&#13;&#10;2")), "3"),
    "a command in a truth value": (row(of_kind("boolean", "true&#10;set A9 666")), None),
    "a command in a date": (row(of_kind("date", "2020-01-01&#10;set A9 5")), None),
    "a command in a number": (row(cell("1&#10;set A9 5")), None),
    "a date that there isn't": (row(of_kind("date", "2023-02-29")), None),
    "a date with a zone": (row(of_kind("date", "2020-01-01T00:00:00+01:00")), None),
    "a time of 5,000 digits": (row(of_kind("time", f"PT{'9' * 5000}H0M0S")), None),
    "seconds with points": (row(of_kind("time", "PT1H0M1.2.3S")), None),
    "a number without a number": (row(cell("NaN")), None),
    "a number with an underscore": (row(cell("1_000")), None),
    "a number in Arabic figures": (row(cell("\u0661")), None),
    "an exponent of nine digits": (row(cell("1e999999999")), None),
    "an exponent of minus nine digits": (row(cell("1e-999999999")), None),
    "ten thousand digits": (row(cell("0." + "1" * 10_000)), "111111111111111/1000000000000000"),
    "an exponent in a formula": (row(formula("1.00000000000000001e99999999999")), "1"),
    "two thousand million spaces": (row(text('<text:s text:c="2000000000"/>')), None),
    "a comment in a text": (row(text("a<office:annotation><text:p>b</text:p></office:annotation>c")), "ac"),
    "a text of 32,768 bytes": (row(text("x" * 32_768)), None),
    "quotes in brackets": (row(formula("['" + "''" * 20_000 + "x")), "1"),
    "brackets in brackets": (row(formula("['" * 4_000)), "1"),
    "a name of 200,000 letters": (row(formula("a" * 200_000)), "1"),
    "a name of letters and spaces": (row(formula("a" * 3_000 + " " * 3_000)), "1"),
    "quotes": (row(formula("&quot;" * 7_001)), "1"),
    "parentheses": (row(formula("(" * 4_000)), "1"),
    "a long formula": (row(formula("1+" * 3_000 + "1")), "1"),
    "an array that has no end": (row(f'<table:table-cell table:formula="of:=1" table:number-matrix-columns-spanned="{"9" * 30}"'
                                     ' office:value-type="float" office:value="7"/>'), "7"),
}
"""Rows of a sheet, and what A1 shows then: the saved value of what can't go over, nothing where that can't either."""


def limited() -> None:
    resource.setrlimit(resource.RLIMIT_AS, (MEMORY, MEMORY))


def called(path: Path) -> "subprocess.CompletedProcess[bytes]":
    return subprocess.run([str(ROOT / "tools" / "whatif-import"), str(path)], capture_output=True, timeout=SECONDS, preexec_fn=limited)


class Hostile(unittest.TestCase):
    def setUp(self) -> None:
        self.folder = tempfile.TemporaryDirectory()
        self.path = Path(self.folder.name) / "made.ods"

    def tearDown(self) -> None:
        self.folder.cleanup()

    def archive(self, content: bytes, name: str = "content.xml") -> bytes:
        with zipfile.ZipFile(self.path, "w", zipfile.ZIP_DEFLATED) as archive:
            archive.writestr(name, content)
        return self.path.read_bytes()

    def refused(self) -> None:
        """One sentence, and status 2."""
        written, told = io.StringIO(), io.StringIO()
        with contextlib.redirect_stdout(written), contextlib.redirect_stderr(told):
            status = main([str(self.path)])
        self.assertEqual((status, written.getvalue()), (2, ""), told.getvalue()[-300:])
        self.assertTrue(told.getvalue().startswith("whatif-import: "), told.getvalue()[-300:])
        self.assertEqual(told.getvalue().count("\n"), 1, told.getvalue()[-300:])
        self.assertLess(len(told.getvalue()), 1_000)

    def test_what_is_refused(self) -> None:
        for title, content in REFUSED.items():
            with self.subTest(title):
                with self.assertRaises(NotASpreadsheet):
                    parsed(iter([content.encode()]), self.path)

    def test_one_sentence(self) -> None:
        for title in ("a million rows", "entities of entities", "groups in groups", "nothing"):
            with self.subTest(title):
                self.archive(REFUSED[title].encode())
                self.refused()

    def test_what_does_no_harm(self) -> None:
        """All in one call each: the script sets nothing but what the cells hold."""
        for title, (rows, shown) in HARMLESS.items():
            with self.subTest(title):
                document = parsed(iter([(HEAD + sheet(rows) + TAIL).encode()]), self.path)
                answer = run((Carrier.of(document, document.sheets[0]).script()).encode() + ASK)
                self.assertTrue(all(reply.code is None for reply in answer.replies))
                known = {address: value for address, _, value in answer.replies[-1].records()}
                self.assertEqual(known, {} if shown is None else {"A1": shown})

    def test_names_of_sheets(self) -> None:
        """A line break in the name of a sheet, and a very long name, stay in their comment."""
        for name in ("a&#10;set A9 5&#10;", "a" * 70_000):
            self.archive((HEAD + sheet(row(cell("1")), name) + TAIL).encode())
            done = called(self.path)
            lines = done.stdout.splitlines()
            self.assertEqual((done.returncode, lines[1:]), (0, [b"set A1 1"]))
            self.assertTrue(lines[0].startswith(b"# the sheet a"))
            self.assertLess(len(lines[0]), 400)

    def test_broken_archives(self) -> None:
        whole = self.archive((HEAD + sheet(row(cell("1"))) + TAIL).encode())
        local, central = whole.index(b"PK\x03\x04"), whole.index(b"PK\x01\x02")
        data = local + 30 + len("content.xml")
        for title, changes in {
            "a password": {local + 6: b"\x01", central + 8: b"\x01"},
            "a method that isn't there": {local + 8: b"\x63", central + 10: b"\x63"},
            "what can't be unpacked": {data: b"\xff" * 8},
            "a wrong sum": {local + 14: bytes(4), central + 16: bytes(4)},
            "a place behind the end": {central + 42: b"\xf0\xff\xff\xff"},
        }.items():
            with self.subTest(title):
                broken = bytearray(whole)
                for at, new in changes.items():
                    broken[at : at + len(new)] = new
                self.path.write_bytes(broken)
                self.refused()
        for content in (whole[: len(whole) // 2], b"\0" * 100, b"a,b\n1,2\n", b""):
            self.path.write_bytes(content)
            self.refused()
        self.archive(b"x", "mimetype")
        self.refused()

    def test_bombs(self) -> None:
        """3 MB of spaces in 3 kB where 2 MB is the most, and 40,000 elements where 30,000 are."""
        spaces = (b" " * 1_000_000, 3, ("spreadsheet_file.MOST_BYTES", 2_000_000))
        elements = (b"<a/>" * 10_000, 4, ("ods.MOST_ELEMENTS", 30_000))
        for part, count, bound in (spaces, elements):
            with zipfile.ZipFile(self.path, "w", zipfile.ZIP_DEFLATED) as archive, archive.open("content.xml", "w") as file:
                file.write(HEAD.encode())
                for _ in range(count):
                    file.write(part)
                file.write((sheet(row(cell("1"))) + TAIL).encode())
            self.assertEqual(len(read(self.path).sheets), 1)
            with unittest.mock.patch(f"whatif_tools.{bound[0]}", bound[1]), self.assertRaises(NotASpreadsheet):
                read(self.path)

    def test_a_converter_that_hangs(self) -> None:
        """It is ended with what it has started, and that is said."""
        folder = Path(self.folder.name)
        (folder / "soffice").write_text(f"#!/bin/sh\n(sleep 4; touch {folder}/late) &\nwait\n")
        (folder / "soffice").chmod(0o755)
        self.path.write_bytes(b"\xd0\xcf\x11\xe0")
        environment = {"PATH": f"{folder}{os.pathsep}{os.environ['PATH']}"}
        with unittest.mock.patch.dict(os.environ, environment), unittest.mock.patch("whatif_tools.spreadsheet_file.SECONDS", 2):
            self.refused()
        time.sleep(3)
        self.assertFalse((folder / "late").exists())

    def test_what_is_no_file(self) -> None:
        for path in (Path(self.folder.name), self.path, Path("/dev/null")):
            self.path = path
            self.refused()

    def test_memory(self) -> None:
        """The tool in a process of its own, with 1 GB."""
        for title in ("all columns of many rows", "entities of entities"):
            self.archive(REFUSED[title].encode())
            done = called(self.path)
            self.assertEqual((done.returncode, done.stdout, done.stderr.count(b"\n")), (2, b"", 1))
