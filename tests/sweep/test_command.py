"""whatif-sweep on this machine: results, sets that fail, sweeps that are wrong."""

import json
import os
import pty
import random
import resource
import select
import subprocess
import unittest
from fractions import Fraction
from typing import Any

from tests.sweep.sweeping import SOLAR, SweepTest, solar_sets, text_of
from tests.support.solar import left


class ResultsTest(SweepTest):
    def test_results_in_the_order_of_the_sets(self) -> None:
        ran = self.swept("name,B1,B2\na,400,0.28\nb,650,0.45\n")
        self.assertEqual((ran.returncode, ran.stdout), (0, "name,B4\na,112\nb,292.5\n"))
        self.assertIn("2 sets: 2 results, 0 failed; sha256 of the results ", ran.stderr)
        self.assertEqual(sorted(it.name for it in self.folder.iterdir()), ["model.whatif"])

    def test_two_hundred_sets_are_exactly_as_pythons_fractions(self) -> None:
        head, *lines = solar_sets(100_000)
        some = random.Random(7).sample(lines, 200)
        ran = self.swept(text_of([head, *some]), "--jobs", "2", model=SOLAR, out="B10")
        wanted = [(line.split(",")[0], left(*line.split(",")[1:])) for line in some]
        given = [line.split(",") for line in ran.stdout.splitlines()[1:]]
        self.assertEqual([(name, Fraction(result)) for name, result in given], wanted)

    def test_chunks_are_one_process(self) -> None:
        sets = text_of(solar_sets(1500))
        one = self.swept(sets, "--chunk", "1500", "--jobs", "1", model=SOLAR, out="B10")
        many = self.swept(sets, "--chunk", "70", "--jobs", "3", model=SOLAR, out="B10")
        self.assertEqual((one.returncode, one.stdout), (many.returncode, many.stdout))
        self.assertEqual(len(one.stdout.splitlines()), 1501)

    def test_labels_stay_as_they_are(self) -> None:
        ran = self.swept('name,"the ""site""",B1\n"bolt, M6",,400\n"x",é,1\n', "--labels", "2")
        self.assertEqual(ran.stdout, 'name,"the ""site""",B4\n"bolt, M6",,128\nx,é,0.32\n')

    def test_line_ends_marks_and_empty_lines(self) -> None:
        ran = self.swept("\ufeffname,b1\r\na,400\r\n\r\n\nb,1")
        self.assertEqual(ran.stdout, "name,B4\na,128\nb,0.32\n")

    def test_no_labels(self) -> None:
        self.model.write_text('set B1 1\nset B4 =IF([.B1]=1;"";[.B1])\n')
        ran = self.swept("B1\n1\n2\n", "--labels", "0")
        self.assertEqual(ran.stdout, 'B4\n""\n2\n')

    def test_no_sets(self) -> None:
        ran = self.swept("name,B1\n")
        self.assertEqual((ran.returncode, ran.stdout), (0, "name,B4\n"))

    def test_several_outputs_and_texts_with_everything(self) -> None:
        sets = 'name,B1,B3\na,400,"a ""b"", c"\nb,0,=[.B1]\n'
        ran = self.swept(sets, out="B5,B4,B7:B7")
        self.assertEqual(ran.stdout, 'name,B5,B4,B7\na,"a ""b"", c 400",128,0.25\nb,=[.B1] 0,0,#DIV/0!\n')

    def test_an_error_value_is_a_result(self) -> None:
        ran = self.swept("name,B1\na,0\n", out="B7")
        self.assertEqual((ran.returncode, ran.stdout), (0, "name,B7\na,#DIV/0!\n"))

    def test_numbers_are_exact_however_they_are_spelled(self) -> None:
        spelled = ["1e-7", "2.5E+3", ".5", "5.", "-1/3", "+7", "0.30000000000000004", "0.1234567890123456789012345678"]
        ran = self.swept(text_of(["name,B1", *(f"{it},{it}" for it in spelled)]), out="B1")
        given = [Fraction(line.partition(",")[2]) for line in ran.stdout.splitlines()[1:]]
        self.assertEqual(given, [Fraction(it.rstrip(".")) for it in spelled])

    def test_a_text_is_a_text_whatever_it_looks_like(self) -> None:
        texts = ["=1+1", "'x", "x  ", "a\u2028b\x0bc", "007", "TRUE", "of:=2", "#N/A", " 5", "1e3", "%s", "", "set B1 5"]
        ran = self.swept(text_of(["name,B3", *(f"n,{it}" for it in texts)]), "--repeated", out="B5")
        self.assertEqual(ran.stdout.split("\n")[1:-1], [f"n,{it} 250" for it in texts])

    def test_truth_values(self) -> None:
        ran = self.swept("name,C1\na,TRUE\nb,False\nc,1\n", out="B6")
        self.assertEqual((ran.returncode, ran.stdout), (1, "name,B6\na,1\nb,2\n"))
        self.assertEqual(self.failures(), ["4,c,\"C1: '1' is neither TRUE nor FALSE, and the model has a truth value there\""])

    def test_an_empty_cell_takes_numbers_and_with_a_word_texts(self) -> None:
        self.model.write_text("set B1 =IF(ISBLANK([.A1]);0;[.A1])\n")
        sets = "name,A1\na,5\nb,x\nc,\nd,TRUE\n"
        ran = self.swept(sets, out="B1")
        self.assertEqual(ran.stdout, "name,B1\na,5\nc,0\nd,TRUE\n")
        self.assertEqual(self.failures(), ["3,b,\"A1: 'x' is a text, and the model's cell is empty: --text A1 takes texts\""])
        self.assertEqual(self.swept(sets, "--text", "A1", out="B1").stdout, "name,B1\na,5\nb,x\nc,\nd,TRUE\n")

    def test_a_scenario_and_sets_that_go_before_it(self) -> None:
        ran = self.swept("name,B2\na,1\n", "--scenario", "winter")
        self.assertEqual(ran.stdout, "name,B4\na,400\n")
        ran = self.swept("name,B1,B2\na,7,1\nb,8,1\n", "--scenario", "winter")
        self.assertEqual(ran.stdout, "name,B4\na,7\nb,8\n")

    def test_a_model_that_ends_in_a_session_and_a_scenario(self) -> None:
        self.model.write_text(TARIFF_OF_ANA)
        ran = self.swept("name,B1\na,7\n")
        self.assertEqual(ran.stdout, "name,B4\na,7\n")

    def test_results_in_a_file_and_what_was_swept(self) -> None:
        ran = self.swept("name,B1\na,7\nb,x\n", "-o", "results.csv")
        self.assertEqual((ran.returncode, ran.stdout), (1, ""))
        self.assertEqual((self.folder / "results.csv").read_text(), "name,B4\na,2.24\n")
        self.assertEqual(self.failures("results.failures.csv"), ["3,b,\"B1: 'x' is no number, and the model has one there\""])
        said = json.loads((self.folder / "results.csv.json").read_text())
        self.assertEqual((said["results"], said["failures"], said["sets"]["count"]), (1, 1, 2))

    def test_a_terminal_shows_how_far_it_is(self) -> None:
        ours, theirs = pty.openpty()
        sets = self.folder / "sets.csv"
        sets.write_text(text_of(["name,B1", *(f"{it},{it}" for it in range(1, 200))]))
        words = self.words(self.model, "--out", "B4", "--sets", sets, "--jobs", "2", "-o", "r.csv")
        running = subprocess.Popen(words, cwd=self.folder, stdin=theirs, stderr=theirs, env=self.environment(self.slow(0.1)))
        os.close(theirs)
        shown = b""
        while select.select([ours], [], [], 30)[0]:
            try:
                shown += os.read(ours, 4096)
            except OSError:
                break
        self.assertEqual(running.wait(), 0)
        self.assertRegex(shown.decode(), r"\[#*\.*\] [0-9]+ of 199 sets, ")


TARIFF_OF_ANA = """\
set B1 250
set B4 =[.B1]
scenario winter B1 400
as ana
changes
set B1 300
use winter
"""


class FailedSetsTest(SweepTest):
    def test_a_field_too_many_or_too_few(self) -> None:
        ran = self.swept("name,B1,B2\na,400,0.28\nb,400,0.28,1\nc,400\nd,650,0.45\n\"e,1,2\nf\n")
        self.assertEqual((ran.returncode, ran.stdout), (1, "name,B4\na,112\nd,292.5\n"))
        wanted = ['3,b,"4 fields, and the head has 3"', '4,c,"2 fields, and the head has 3"']
        more = ['6,"""e",no CSV: unexpected end of data', '7,f,"1 fields, and the head has 3"']
        self.assertEqual(self.failures(), wanted + more)
        self.assertIn("failed: 3,b,", ran.stderr)
        self.assertIn("all that failed are in whatif-sweep.failures.csv", ran.stderr)

    def test_values_that_a_number_cant_be(self) -> None:
        bad = ["", "x", "12%", "1,5", "nan", "inf", "TRUE", "0x10", "1_000", "٣", "1/0", "1e99", "2" * 40, " 5", "=1"]
        lines = ["name,B1", "good,1", *(f'bad{at},"{it}"' for at, it in enumerate(bad)), "last,2"]
        ran = self.swept(text_of(lines))
        self.assertEqual((ran.returncode, ran.stdout), (1, "name,B4\ngood,0.32\nlast,0.64\n"))
        self.assertEqual(len(self.failures()), len(bad))
        self.assertTrue(all(": " in it for it in self.failures()))

    def test_a_value_that_the_program_refuses(self) -> None:
        ran = self.swept(f"name,B1,B3\na,1,x\nb,2,{'y' * 40_000}\nc,3,{'z' * 70_000}\nd,4,w\n", out="B5")
        self.assertEqual((ran.returncode, ran.stdout), (1, "name,B5\na,x 1\nd,w 4\n"))
        self.assertEqual([it[:29] for it in self.failures()], ["3,b,refused E08: force set B3", "4,c,refused E03: force set B3"])

    def test_a_text_that_is_no_utf_8(self) -> None:
        sets = b"name,B1,B3\na,1,x\nb,2,\xff\n"
        words = self.words(self.model, "--out", "B5", "--jobs", "1")
        ran = subprocess.run(words, input=sets, capture_output=True, cwd=self.folder, env=self.environment())
        self.assertEqual((ran.returncode, ran.stdout), (1, b"name,B5\na,x 1\n"))
        self.assertEqual(self.failures(), ["3,b,no UTF-8"])

    def test_what_failed_before_isnt_left(self) -> None:
        self.swept("name,B1\na,x\n")
        self.assertEqual(len(self.failures()), 1)
        self.swept("name,B1\na,1\n")
        self.assertFalse((self.folder / "whatif-sweep.failures.csv").exists())

    def test_again_only_chunks_with_failures(self) -> None:
        sets = text_of(["name,B1", *(f"n{it},{it}" for it in range(1, 60))])
        dying = self.dying("force set B1 33", 5)
        first = self.swept(sets, "--resume", "work", program=dying)
        self.assertEqual((first.returncode, len(first.stdout.splitlines())), (1, 59))
        self.assertEqual(self.failures("work/failures.csv"), ["34,n33,the program ends at this set: killed by signal 9"])
        done = self.done_files()
        again = self.run_tool("--resume", "work", "--again", "--jobs", "2", program=dying)
        self.assertEqual((again.returncode, len(again.stdout.splitlines())), (0, 60))
        self.assertEqual([it for it, came in self.done_files().items() if done[it] != came], ["000003"])


class WrongSweepTest(SweepTest):
    def wrong(self, sets: str, *words: object, **more: Any) -> str:
        ran = self.swept(sets, *words, **more)
        self.assertEqual((ran.returncode, ran.stdout), (2, ""))
        self.assertEqual([it.name for it in self.folder.iterdir() if it.name.startswith("whatif-sweep")], [])
        return ran.stderr

    def test_the_head(self) -> None:
        self.assertIn("column 3 of the sets, 'BI', is no address", self.wrong("name,B1,BI\n"))
        self.assertIn("column 2 of the sets, 'site', is no address: --labels 2 if it is a label", self.wrong("name,site,B1\n"))
        self.assertIn("column 1 of the sets, 'B1', is an address", self.wrong("B1,B2\n1,2\n"))
        self.assertIn("B1 stands twice", self.wrong("name,B1,b1\n"))
        self.assertIn("are the fields parted by commas?", self.wrong("name;B1;B2\n"))
        self.assertIn("the sets are empty", self.wrong(""))
        self.assertIn("UTF-16", self.wrong("n\0a\0m\0e\0"))

    def test_an_address_outside_the_sheet(self) -> None:
        self.assertIn("XFE1 in the head of the sets is outside the sheet", self.wrong("name,XFE1\na,1\n"))
        self.assertIn("B1048577", self.wrong("name,B1048577\na,1\n"))

    def test_an_input_that_does_nothing(self) -> None:
        self.assertIn("no output depends on B9", self.wrong("name,B1,B9\na,1,2\n"))

    def test_outputs(self) -> None:
        self.assertIn("B99 is empty in the model", self.wrong("name,B1\na,1\n", out="B99"))
        self.assertIn("outside the sheet", self.wrong("name,B1\na,1\n", out="XFE1"))
        self.assertIn("no address and no rectangle", self.wrong("name,B1\na,1\n", out="price"))
        self.assertIn("B4 stands there twice", self.wrong("name,B1\na,1\n", out="B4,B4"))

    def test_names_that_stand_twice(self) -> None:
        sets = 'name,B1\na,1\nb,2\na,3\n"c,1",1\n"c,2",1\nb,1\n'
        self.assertIn("a name stands twice: 'a' on lines 2 and 4, 'b' on lines 3 and 7; --repeated", self.wrong(sets))
        self.assertEqual(len(self.swept(sets, "--repeated").stdout.splitlines()), 7)

    def test_the_model(self) -> None:
        self.assertIn("No such file", self.wrong("name,B1\na,1\n", model="none.whatif"))
        self.model.write_text("set B1 1\nset B4 =B1*2\n")
        self.assertIn("the model: line 2: refused E05", self.wrong("name,B1\na,1\n"))
        self.model.write_text("set B1 1\nset B4 =[.B1]\ncsv A1 3\n1\n")
        self.assertIn("line 3: 3 data lines are announced, 1 are left", self.wrong("name,B1\na,1\n"))

    def test_the_scenario(self) -> None:
        self.assertIn("the model has no scenario sommer", self.wrong("name,B1\na,1\n", "--scenario", "sommer"))

    def test_the_program(self) -> None:
        self.assertIn("no such program", self.wrong("name,B1\na,1\n", program="/none"))
        self.assertIn("false", self.wrong("name,B1\na,1\n", program="/bin/false"))

    def test_places_that_wont_do(self) -> None:
        self.assertIn("no plain file", self.wrong("name,B1\na,1\n", "-o", "/dev/full"))
        self.assertIn("no such folder", self.wrong("name,B1\na,1\n", "-o", "none/results.csv"))
        self.assertIn("--part 4/4", self.run_part("4/4"))

    def run_part(self, part: str) -> str:
        self.swept("name,B1\na,1\n", "--resume", "work", "--plan")
        return self.run_tool("--resume", "work", "--part", part).stderr

    def test_a_folder_of_another_sweep(self) -> None:
        self.swept("name,B1\na,1\n", "--resume", "work")
        self.assertIn("differs in the sets", self.wrong("name,B1\na,2\n", "--resume", "work"))
        self.assertIn("differs in the model, the outputs", self.wrong("name,B1\na,1\n", "--resume", "work", out="B7"))
        self.assertIn("differs in the program", self.wrong("name,B1\na,1\n", "--resume", "work", program=self.slow(0)))
        self.assertEqual(self.swept("name,B1\na,1\n", "--resume", "work").stdout, "name,B4\na,0.32\n")


class FullDiskTest(SweepTest):
    sets = text_of(["name,B1", *(f"{it:06},{it}" for it in range(1, 3000))])

    def test_standard_output(self) -> None:
        with open("/dev/full", "w") as full:
            words = self.words(self.model, "--out", "B4", "--jobs", "2", "--chunk", "500")
            ran = subprocess.run(words, input=self.sets, stdout=full, stderr=subprocess.PIPE, text=True, cwd=self.folder, env=self.environment())
        self.assertEqual(ran.returncode, 3)
        self.assertRegex(ran.stderr, "the results can't be written: No space left on device. what is done is kept: whatif-sweep --resume .*whatif-")
        (kept,) = self.folder.glob("whatif-sweep-*")
        self.assertEqual(self.run_tool("--resume", kept).stdout, self.swept(self.sets, "--chunk", "1000").stdout)

    def limited(self, size: int, *words: object) -> "subprocess.CompletedProcess[str]":
        def limit() -> None:
            resource.setrlimit(resource.RLIMIT_FSIZE, (size, size))

        line = self.words(self.model, "--out", "B4", "--jobs", "2", "--chunk", "500", *words)
        return subprocess.run(line, input=self.sets, capture_output=True, text=True, cwd=self.folder, env=self.environment(), preexec_fn=limit)

    def test_results_that_dont_fit(self) -> None:
        ran = self.limited(len(self.sets) + 500, "-o", "results.csv", "--resume", "work")
        self.assertEqual((ran.returncode, [it.name for it in self.folder.glob("*results.csv*")]), (3, []))
        self.assertIn("File too large", ran.stderr)
        again = self.run_tool("--resume", "work", "-o", "results.csv")
        self.assertEqual(again.returncode, 0)
        self.assertEqual((self.folder / "results.csv").read_text(), self.swept(self.sets, "--chunk", "1000").stdout)

    def test_sets_that_dont_fit(self) -> None:
        ran = self.limited(20_000, "--resume", "work")
        self.assertEqual((ran.returncode, ran.stdout), (3, ""))
        self.assertIn("File too large. nothing is kept", ran.stderr)


if __name__ == "__main__":
    unittest.main()
