"""How whatif-check pairs lines and replies, finds where errors start, and prints what it has found."""

import contextlib
import csv
import io
import random
import subprocess
import tempfile
import unittest
from pathlib import Path

from whatif_tools.check import Check
from whatif_tools.check_command import main
from whatif_tools.data import records
from whatif_tools.finding import Finding, Kind, excerpt
from whatif_tools.numbers import is_number, meant_as_number
from whatif_tools.program import ROOT, fields, parted
from whatif_tools.script import commands, lines_of


class Scripts(unittest.TestCase):
    """Scripts in a file of their own."""

    def setUp(self) -> None:
        self.folder = tempfile.TemporaryDirectory()
        self.path = Path(self.folder.name) / "s.whatif"

    def tearDown(self) -> None:
        self.folder.cleanup()

    def findings(self, script: bytes) -> list[Finding]:
        self.path.write_bytes(script)
        return Check.of(self.path).findings()

    def called(self, script: bytes, *words: str) -> tuple[int, str]:
        self.path.write_bytes(script)
        written = io.StringIO()
        with contextlib.redirect_stdout(written):
            status = main([*words, str(self.path)])
        return status, written.getvalue().replace(str(self.path), "s.whatif")


class Lines(Scripts):
    def test_lines_that_are_answered(self) -> None:
        script = b"# a\n\n  \r\nset A1 1\r\n force  csv  A1  2 \nset A1 9\n#x\nshow A1\n#\xff\nset A2 2"
        found = [(command.line, command.raw, command.data) for command in commands(lines_of(script))]
        self.assertEqual(
            found,
            [
                (4, b"set A1 1", ()),
                (5, b" force  csv  A1  2 ", (b"set A1 9", b"#x")),
                (8, b"show A1", ()),
                (9, b"#\xff", ()),
                (10, b"set A2 2", ()),
            ],
        )
        self.path.write_bytes(script)
        check = Check.of(self.path)
        self.assertEqual(len(check.answer.replies), len(check.commands))

    def test_data_lines(self) -> None:
        """No reply is taken for that of another line where a csv is wrong, too long, or not UTF-8."""
        for line in (b"csv A1 1000001", b"csv a", b"csv 1 1 1", b"Csv A1 1", b"csv\tA1 1", b"csv A1 +1", b"csv A1" + b" " * 65_536 + b"1", b"csv ZZZZ1 1",
                     b"csv \xff 1"):
            self.path.write_bytes(line + b"\nquit\nset A1 1\n")
            check = Check.of(self.path)
            self.assertEqual(len(check.answer.replies), len(check.commands), line[:20])
            self.assertEqual(check.answer.replies[-1].end, "ok")

    def test_replies(self) -> None:
        written = b'"a\nok\nrefused E02\n","""x"\r\nok\nlines 1\n"1"\r\nok\nrefused E18 A1\n'
        replies = parted(written)
        self.assertEqual([reply.end for reply in replies], ["ok", "ok", "refused E18 A1"])
        self.assertEqual(replies[0].records(), [["a\nok\nrefused E02\n", '"x']])
        self.assertEqual([reply.code for reply in replies], [None, None, "E18"])

    def test_records(self) -> None:
        """Fields come back as they were, whatever quotes, commas and line breaks stand in them."""
        random.seed(80)
        for _ in range(2000):
            record = ["".join(random.choices('",;a\n\r', k=random.randint(0, 3))) for _ in range(random.randint(1, 4))]
            written = ",".join('"' + field.replace('"', '""') + '"' for field in record) + "\r\n"
            self.assertEqual(fields(written), record)

    def test_data(self) -> None:
        """Data lines are read as the csv module does, with quotes and without; an empty line is none."""
        random.seed(82)
        for _ in range(500):
            lines = ["".join(random.choices(random.choice((",a1 ", ',a"')), k=random.randint(0, 5))) for _ in range(4)]
            found = records(next(commands([b"csv A1 4", *(line.encode() for line in lines)])))
            expected = csv.reader(io.StringIO("\n".join(lines), newline=""))
            self.assertEqual([record.fields for record in found], [record for record in expected if record], lines)
            if '"' not in "".join(lines):
                self.assertEqual([record.line for record in found], [number for number, line in enumerate(lines, 2) if line])

    def test_end_of_the_program(self) -> None:
        found = self.findings(b"#\n" * 1_000_000 + b"show A1\n")
        self.assertEqual([(one.line, one.kind) for one in found], [(1_000_001, Kind.NO_REPLY)])
        self.assertIn("exit status 4", found[0].message)


class Errors(Scripts):
    def starts(self, script: str) -> list[tuple[int, str]]:
        found = self.findings(script.encode())
        self.assertEqual({one.kind for one in found}, {Kind.ERROR_STARTS})
        return [(one.line, one.message) for one in found]

    def test_an_error_that_goes_on(self) -> None:
        script = "set A1 =1/0\nset A2 =[.A1]+1\nset A3 =SUM([.A1:.A2])\nset A4 =VALUE([.A3])\nset A5 =[.A3]&[.A4]\n"
        self.assertEqual(self.starts(script), [(1, "A1 shows #DIV/0!: =1/0; a divisor is 0")])

    def test_two_errors(self) -> None:
        script = "set A1 =NA()\nset A2 =IFERROR([.A1];1/0)\n"
        self.assertEqual([line for line, _ in self.starts(script)], [1, 2])

    def test_names(self) -> None:
        """A cell that a comment names is told by its name too."""
        script = "# name rate A1\n# name list B1:B9\nset A1 =1/0\n"
        self.assertEqual(self.starts(script), [(3, "A1 (rate) shows #DIV/0!: =1/0; a divisor is 0")])

    def test_a_filled_column(self) -> None:
        script = "set A1 x\nset B2 =[.A$1]*2\nfill B2 B3:B9\n"
        cure = "; [.A$1] shows a text, 'x', and a text is never taken as a number"
        self.assertEqual(self.starts(script), [(2, "B2 shows #VALUE!: =[.A$1]*2; 7 more of the column like it" + cure)])

    def test_a_fill_is_where_it_starts(self) -> None:
        script = "set B2 =1/[.A2]\nset A2 1\nfill B2 B2:B4\n"
        cure = "; [.A3] is empty, and counts as 0: =IF([.A3]=0;0;..) asks first"
        self.assertEqual(self.starts(script), [(3, "B3 shows #DIV/0!: =1/[.A3]; 1 more of the column like it" + cure)])

    def test_cycles(self) -> None:
        script = "set A1 =[.B1]\nset B1 =[.A1]\nset C1 =[.B1]\nset D1 =SUM([.A1:.C1])\nset E1 =[.E1]\n"
        self.assertEqual([message[:16] for _, message in self.starts(script)], ["A1 shows #CIRC!:", "B1 shows #CIRC!:", "E1 shows #CIRC!:"])

    def test_another_session_and_scenario(self) -> None:
        """What the script's last session uses hides no error of the sheet."""
        script = "set A1 =1/0\nscenario s A1 1\nas bo\nuse s\nchanges\n"
        self.assertEqual(self.starts(script), [(1, "A1 shows #DIV/0!: =1/0; a divisor is 0")])

    def test_no_room_for_a_session(self) -> None:
        script = "".join(f"as s{number}\n" for number in range(1, 64)) + "set A1 =1/0\n"
        self.assertEqual(self.starts(script), [(64, "A1 shows #DIV/0!: =1/0; a divisor is 0")])

    def test_data_that_lack_lines(self) -> None:
        found = self.findings(b"set A1 =1/0\ncsv B1 9\n1\n")
        self.assertEqual([(one.line, one.kind) for one in found], [(1, Kind.ERROR_STARTS), (2, Kind.REFUSED)])


class Scenarios(Scripts):
    def test_edits_of_replaced_cells(self) -> None:
        base = "set A1 1\nscenario a A1 2\nscenario b B1 3\nbase b a\n"
        for rest, is_found in (
            ("use b\nset A1 5\n", True),
            ("use b\nset C1 5\n", False),
            ("use b\nas ana\nforce set A1 5\n", False),
            ("use b\nas ana\nas main\nset A1 5\n", True),
            ("use b\nbase b\nset A1 5\n", False),
            ("use b\nscenario a A1\nset A1 5\n", False),
            ("use a\nuse\ndrop a\nset A1 5\n", False),
        ):
            with self.subTest(rest):
                found = self.findings((base + rest).encode())
                self.assertEqual(any(one.kind is Kind.REPLACED for one in found), is_found)


class Command(Scripts):
    def test_what_is_written(self) -> None:
        written = "s.whatif:2:10: refused E05: the formula's syntax; parameters are parted by ; and decimals have a point\n    set A2 =2,5\n             ^\n"
        self.assertEqual(self.called(b"set A1 1\nset A2 =2,5\n"), (1, written))

    def test_nothing_found(self) -> None:
        self.assertEqual(self.called(b"set A1 1\n"), (0, ""))

    def test_transcript(self) -> None:
        written = '     2  set A1 1\nok\n     3  csv A2 1\n     4  2,3\nok\n     5  show A1:B2\n"1",""\n"2","3"\nok\n'
        self.assertEqual(self.called(b"#\nset A1 1\ncsv A2 1\n2,3\nshow A1:B2\n", "-t"), (0, written))

    def test_no_script(self) -> None:
        with contextlib.redirect_stderr(io.StringIO()):
            self.assertEqual(main(["nowhere.whatif"]), 2)

    def test_long_lines(self) -> None:
        shown, caret, _ = excerpt("\t" + "a" * 300 + "X" + "b" * 300, 301).split("\n")
        self.assertEqual(len(shown), 104)
        self.assertEqual(shown[caret.index("^")], "X")
        self.assertEqual(excerpt("\tset", 1), "    \tset\n    \t^\n")


class Loaded(Scripts):
    """A script that is run behind another one."""

    def questions(self, model: str, questions: str, *words: str) -> tuple[int, str]:
        load = self.path.with_name("m.whatif")
        load.write_text(model)
        status, written = self.called(questions.encode(), *words, "--load", str(load))
        return status, written.replace(str(load), "m.whatif")

    def test_both_are_looked_at(self) -> None:
        status, written = self.questions("set A1 5\nset A2 12%\n", "show A1\nshwo A1\n")
        heads = [line.partition(";")[0] for line in written.splitlines() if not line.startswith("    ")]
        self.assertEqual((status, heads), (1, ["m.whatif:2:8: a text, no number: '12%'", "s.whatif:2:1: refused E02: no such command, or wrong words"]))

    def test_cells_and_names_of_the_model(self) -> None:
        model = "set A1 5\nset A2 =[.A1]*2\nset B1 1\nscenario low A1 4\n"
        self.assertEqual(self.questions(model, "table A2 A1 B1\nuse low\n"), (0, ""))
        for questions, said in (
            ("table A1 A2 B1\n", "s.whatif:1:10: A1 has no formula"),
            ("set A2 7\n", "s.whatif:1:1: A2 had a formula, =[.A1]*2"),
            ("use lwo\n", "s.whatif:1:5: refused E10: no such scenario; is low meant?"),
            ("set A1 x\n", "s.whatif:1:1: A2 shows #VALUE!: =[.A1]*2; [.A1] shows a text"),
        ):
            with self.subTest(questions):
                status, written = self.questions(model, questions)
                self.assertEqual(status, 1)
                self.assertTrue(written.startswith(said), written)

    def test_an_error_of_the_model_is_told_once(self) -> None:
        _, written = self.questions("set A1 =1/0\n", "show A1\n")
        self.assertEqual(written, "m.whatif:1:1: A1 shows #DIV/0!: =1/0; a divisor is 0\n")

    def test_transcript(self) -> None:
        self.assertEqual(self.questions("set A1 5\n", "show A1\n", "-t"), (0, '     1  set A1 5\nok\n     1  show A1\n"5"\nok\n'))

    def test_standard_input(self) -> None:
        program = str(ROOT / "tools" / "whatif-check")
        done = subprocess.run([program, "-"], input=b"set A1 5\nset A2 =2,5\n", capture_output=True)
        self.assertEqual((done.returncode, done.stdout.partition(b";")[0]), (1, b"-:2:10: refused E05: the formula's syntax"))
        self.assertEqual(subprocess.run([program, "-"], input=b"set A1 5\n", capture_output=True).returncode, 0)

    def test_no_model(self) -> None:
        with contextlib.redirect_stderr(io.StringIO()):
            self.assertEqual(main(["--load", "nowhere.whatif", str(self.path)]), 2)


class Meant(Scripts):
    """Comments that say what is meant."""

    def test_what_is_meant_is_no_finding(self) -> None:
        for script in (
            "scenario a A1 1\nuse a\n#! E12\ndrop a\n",
            "#! #DIV/0!\nset A1 =1/0\n",
            "#! E05\nset A1 =1+\n",
            "#! meant\nset A1 12%\n",
            "#! meant\ncsv A1 2\n1;2\n3;4\n",
            "#!/usr/bin/whatif\nset A1 1\n",
            "#! a heading\nset A1 1\n",
        ):
            self.assertEqual(self.findings(script.encode()), [], script)

    def test_only_the_next_line_counts(self) -> None:
        for script in ("#! E12\n\ndrop a\n", "#! E10\n# why\ndrop a\n", "#! E10\nset A1 1\ndrop a\n"):
            self.assertIn(Kind.REFUSED, [found.kind for found in self.findings(script.encode())], script)

    def test_what_is_meant_must_come(self) -> None:
        found = self.findings(b"#! meant\nset A1 1\n#! E10 #NUM!\ndrop a\n")
        self.assertEqual([(one.line, one.kind) for one in found], [(2, Kind.NOT_AS_MEANT), (4, Kind.NOT_AS_MEANT)])


class WhatIfs(Scripts):
    """Which cells rest on which."""

    def unread(self, script: str) -> list[int]:
        return [found.line for found in self.findings(script.encode()) if found.kind is Kind.UNREAD_INPUT]

    def test_inputs_that_are_read(self) -> None:
        for script in (
            "set A1 1\nset A2 =[.A1]\nset A3 =[.A2]\nset D1 5\ntable A3 A1 D1\n",
            "set A1 1\nset A9 =SUM([.A1:.B8])\nset D1 5\ntable A9 B7 D1\n",
            "set A1 1\nset B1 =[.A1]\nfill B1 C1:F1\nset D9 5\ntable F1 A1 D9\n",
            "set A1 1\nset B2 =[.$A1]*2\nfill B2 B3:C4\nset D9 5\ntable C4 A3 D9\n",
            "set A1 1\nset B1 =[.A1]\nfill B1 B2:B6000\nset C1 =SUM([.B1:.B6000])\nset D9 5\ntable C1 A5999 D9\n",
            "set A1 1\nset C1 =IF([.A1]>0;[.A2];[.A3])\nset D9 5\ntable C1 A3 D9\n",
            "set A1 1\nset A2 =[.A1]*2\nset B1 =MULTIPLE.OPERATIONS([.A2];[.A1];[.B9])\nset B2 =[.B1]\nset D9 5\ntable B2 A1 D9\n",
            "set D9 5\ntable D9 D9 D9\n",
        ):
            self.assertEqual(self.unread(script), [], script)

    def test_inputs_that_are_not(self) -> None:
        for script, line in (
            ("set B2 =[.$A1]*2\nfill B2 B3:C4\nset D9 5\ntable C4 A4 D9\n", 4),
            ("set A1 1\nset B1 =[.A1]\nset B1 =[.A2]\nset D9 5\ntable B1 A1 D9\n", 5),
            ("set A1 1\nset B1 =[.A1]\nclear B1\nset D9 5\ntable B1 A1 D9\n", 5),
            ("set A1 1\nset B1 =[.A1]\nclear A1:Z9000\nset D9 5\ntable B1 A1 D9\n", 5),
            ("set A1 1\nset B1 =[.A1]\ncsv B1 1\n7\nset D9 5\ntable B1 A1 D9\n", 6),
            ("set A1 =[.A2]\nset A2 =[.A1]\nset D9 5\ntable A1 A3 D9\n", 4),
        ):
            self.assertEqual(self.unread(script), [line], script)

    def test_over_formulas(self) -> None:
        for script, count in (
            ("set A1 =1+1\nset A1 2\n", 1),
            ("set A1 =1+1\nset A1 2\nset A1 =1+2\n", 0),
            ("set A1 =1+1\nset A1 2\nclear A1\n", 0),
            ("set A1 =1+1\nclear A1\nset A1 2\n", 0),
            ("set A1 =1+1\nset A1 =2\n", 0),
            ("set A1 =[.B1]\nset B1 =[.A1]\nset B1 3\n", 0),
            ("set A1 =1+1\nfill A1 A2:A3\ncsv A1 3\n4\n5\n6\n", 1),
            ("set A1 =1+1\nset A1 x\nset A2 =1+1\nset A2 y\n", 2),
        ):
            found = [one for one in self.findings(script.encode()) if one.kind is Kind.OVER_FORMULA]
            self.assertEqual(len(found), count, script)

    def test_names(self) -> None:
        """Names that aren't slips of another."""
        for first, second in (("case1", "case2"), ("plan_a", "plan_b"), ("low", "slow"), ("cost", "costs"), ("winter", "summer"), ("price_1", "price_10")):
            script = f"scenario {first} A1 1\nscenario {second} A1 2\nuse {first}\n"
            self.assertEqual(self.findings(script.encode()), [], script)


class Numbers(unittest.TestCase):
    GREATEST = "170141183460469231731687303715884105727"

    def test_numbers(self) -> None:
        for text in ("0", "-12.50", "+1/3", "007", self.GREATEST, f"1/{self.GREATEST}", "0.1"):
            self.assertTrue(is_number(text), text)
            self.assertIsNone(meant_as_number(text))
        for text in ("", ".5", "5.", "1e3", "1/0", "1/-2", "1 ", "\u0663", "17" + "0" * 38, f"1/{'9' * 39}", "0." + "0" * 38 + "1"):
            self.assertFalse(is_number(text), text)

    def test_what_was_meant(self) -> None:
        for text, advice in (
            ("1,234", "write 1.234, or 1234"),
            ("1.234,50", "write 1234.50"),
            ("1'000'000", "write 1000000"),
            ("-12,5 %", "write -0.125"),
            ("€ 3.20", "write 3.20"),
            ("5.", "write 5"),
            ("-.25", "write -0.25"),
            ("2.5E-4", "write 0.00025"),
            ("1e40", "write =1e40 with set"),
            ("31.1.2026", "there are no dates"),
            ("1/0", "denominator is 0"),
            ("NaN", "leave it out"),
            ("False", "write FALSE"),
        ):
            self.assertIn(advice, meant_as_number(text) or "", text)

    def test_texts(self) -> None:
        for text in ("a", "", "12 apples", "1.2.3", "1-2", "A1", "e5", "-", "%", "1,2,3", "12:75", "5-10", "+"):
            self.assertIsNone(meant_as_number(text), text)
