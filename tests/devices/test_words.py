"""The program's words: help, wrong words, and the file of --load."""

import os
import re

from tests.devices.calls import DEVICE, SCRIPT_LIMIT, USAGE, WELL, DeviceTest, call

SHOW = b"show A1\n"
WRONG_WORDS: list[tuple[list[str | bytes], bytes]] = [
    (["--frob"], b"--frob"),
    (["extra"], b"extra"),
    (["--keep"], b"--keep"),
    (["--keep", "0"], b"0"),
    (["--keep", "1000001"], b"1000001"),
    (["--keep", "-1"], b"-1"),
    (["--keep", "1.5"], b"1.5"),
    (["--keep", "many"], b"many"),
    (["--keep", ""], b"--keep"),
    (["--keep", "99999999999999999999999"], b"99999999999999999999999"),
    (["--load"], b"--load"),
    (["--load", "missing", "--keep", "0"], b"0"),
]
COMMANDS = {"set", "clear", "fill", "csv", "show", "export", "table", "scenario", "base", "drop", "use", "as", "changes", "compare", "force",
            "formula"}
REFUSALS = {f"E{number:02}" for number in range(1, 20)}


class Help(DeviceTest):
    def test_help_names_every_option_command_and_refusal_on_standard_output(self) -> None:
        for words in (["--help"], ["-h"], ["--keep", "1", "--help"]):
            with self.subTest(words=words):
                ended = call(words, given=SHOW)
                self.assertEqual((ended.status, ended.told), (WELL, b""))
                told = ended.written.decode()
                for option in ("--load", "--keep", "--help", "-h"):
                    self.assertIn(option, told)
                self.assertEqual(set(re.findall(r"^ +([a-z]+)\b", told, re.MULTILINE)) & COMMANDS, COMMANDS)
                self.assertEqual(set(re.findall(r"\bE[0-9]{2}\b", told)), REFUSALS)

    def test_help_reads_no_script(self) -> None:
        with self.file("script", SHOW).open("rb") as script:
            self.assertEqual(call(["--help"], stdin=script).status, WELL)
            self.assert_unread(script)


class WrongWords(DeviceTest):
    def test_wrong_words_are_told_on_standard_error_and_nothing_is_read(self) -> None:
        for words, wrong in WRONG_WORDS:
            with self.subTest(words=words), self.file("script", SHOW).open("rb") as script:
                ended = call(words, stdin=script)
                self.assertEqual((ended.status, ended.written), (USAGE, b""))
                self.assertIn(wrong, ended.told)
                self.assertIn(b"--help", ended.told)
                self.assert_unread(script)

    def test_a_word_that_is_not_utf8_is_a_wrong_word(self) -> None:
        for words in ([b"\xff"], [b"--load", b"\xff"], [b"--keep", b"\xff"]):
            with self.subTest(words=words), self.file("script", SHOW).open("rb") as script:
                ended = call(words, stdin=script)
                self.assertEqual((ended.status, ended.written), (USAGE, b""))
                self.assertRegex(ended.told, rb"\Awhatif: [^\n]+\n\Z")
                self.assert_unread(script)

    def test_the_least_and_the_greatest_number_of_kept_values(self) -> None:
        for number in ("1", "1000000"):
            self.assert_ended(call(["--keep", number], given=SHOW), WELL, b'""\r\nok\n')


class LoadedFile(DeviceTest):
    def test_a_missing_file_is_named_and_nothing_is_read_or_written(self) -> None:
        for path in ("missing", "no such folder/plan", "", "zwölf"):
            with self.subTest(path=path), self.file("script", SHOW).open("rb") as script:
                ended = call(["--load", path], stdin=script, cwd=self.folder)
                self.assert_ended(ended, DEVICE, b"")
                self.assertIn(path.encode(), ended.told)
                self.assert_unread(script)

    def test_a_folder_in_its_place_is_a_fault_of_reading(self) -> None:
        with self.file("script", SHOW).open("rb") as script:
            ended = call(["--load", str(self.folder)], stdin=script)
            self.assert_ended(ended, DEVICE, b"")
            self.assertTrue(ended.told.startswith(f"whatif: {self.folder} is a folder; ".encode()), ended.told)
            self.assert_unread(script)

    def test_a_path_is_taken_as_it_is_given(self) -> None:
        for name in ("a plan", "-plan", "--keep", "zwölf"):
            self.file(name, b"set A1 5\n")
            with self.subTest(name=name):
                self.assert_ended(call([f"--load={name}"], given=SHOW, cwd=self.folder), WELL, b'ok\n"5"\r\nok\n')
                self.assert_ended(call(["--load", f"./{name}", "--keep", "2"], given=SHOW, cwd=self.folder), WELL, b'ok\n"5"\r\nok\n')

    def test_its_replies_come_first_and_standard_input_goes_on_from_there(self) -> None:
        plan = self.file("plan", b"as ana\nset A1 5\nscenario dear A1 7\nfrob\nuse dear\n")
        ended = call(["--load", str(plan)], given=b"show A1\nas main\nshow A1\nset A1 6\n")
        self.assert_ended(ended, WELL, b'ok\nok\nok\nrefused E02\nok\n"7"\r\nok\nok\n"5"\r\nok\nrefused E18 A1\n')

    def test_its_last_line_is_a_line_of_its_own(self) -> None:
        plan = self.file("plan", b"set A1 5\nset A2")
        self.assert_ended(call(["--load", str(plan)], given=b" 6\nshow A1:A2\n"), WELL, b'ok\nrefused E02\nrefused E02\n"5"\r\n""\r\nok\n')

    def test_data_lines_that_it_lacks_are_not_looked_for_in_standard_input(self) -> None:
        for lacking, replies in ((b"csv A1 2\n7\n", b'refused E13\n"",""\r\nok\n'), (b"set A1 9\ncsv A1 2\n7,8", b'ok\nrefused E13\n"9",""\r\nok\n')):
            plan = self.file("plan", lacking)
            self.assert_ended(call(["--load", str(plan)], given=b"show A1:B1\n"), WELL, replies)

    def test_after_a_fault_in_it_standard_input_is_not_read(self) -> None:
        plan = self.file("plan", b"show A1" + b"\n" * 1_000_001)
        with self.file("script", SHOW).open("rb") as script:
            self.assert_ended(call(["--load", str(plan)], stdin=script), SCRIPT_LIMIT, b'""\r\nok\n')
            self.assert_unread(script)

    def test_its_lines_count_apart(self) -> None:
        plan = self.file("plan", b"\n" * 1_000_000)
        self.assert_ended(call(["--load", str(plan)], given=b"\n" * 999_999 + SHOW), WELL, b'""\r\nok\n')

    def test_a_fault_in_standard_input_leaves_its_replies(self) -> None:
        plan = self.file("plan", b"set A1 5\nshow A1\n")
        folder = os.open(self.folder, os.O_RDONLY)
        self.addCleanup(os.close, folder)
        self.assert_ended(call(["--load", str(plan)], stdin=folder), DEVICE, b'ok\n"5"\r\nok\n')
