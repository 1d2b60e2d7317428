"""The start script `whatif` before a proof: what it builds with no proof, what it says, and what it leaves."""

import os
import signal
import unittest

from tests.start.checkout import FAILED, FASTER, PROGRAM_STATUS, PROVED, QUICK, SECONDS, Checkout, StartTest, ended, wait_for


def left(place: Checkout) -> list[str]:
    return sorted(it.name for it in place.unproved.iterdir())


class FirstCalls(StartTest):
    def test_first_call_answers_without_a_proof(self) -> None:
        answer = self.place.call("--keep", "5")
        self.expect_program(answer, QUICK, "--keep 5")
        said = answer.messages.splitlines()
        self.expect("messages", said, ["whatif: building the program, with no proof, in about a minute",
                                       f"whatif: not proved yet; {self.place.root}/prove proves and builds it, in some 40 minutes on 4 cores"])
        self.expect("calls of rt", self.place.calls(), ["try"])
        self.expect("input of rt", (self.place.root / "given").exists() and (self.place.root / "given").read_text(), "")
        self.expect("asks the prover for a hint", (self.place.root / "hints").exists(), False)

    def test_later_calls_answer_at_once_and_say_one_line(self) -> None:
        self.place.call()
        answer = self.place.call(has_rt=False)
        self.expect("messages", len(answer.messages.splitlines()), 1)
        self.expect("says that it is unproved", "not proved yet; " in answer.messages, True)
        self.expect("calls of rt", self.place.calls(), ["try"])

    def test_a_faster_program_takes_its_place(self) -> None:
        self.place.call()
        wait_for(lambda: "module.bc" not in left(self.place))
        self.expect_program(self.place.call("--load", "x", has_rt=False), FASTER, "--load x")
        self.expect("calls of rt", self.place.calls(), ["try"])
        self.expect("left", left(self.place), ["build.log", "faster.log", "lock", "lock_of_faster", "whatif", "words"])

    def test_a_faster_program_that_was_not_ended_is_begun_again(self) -> None:
        self.place.call(STUB_FAILS="clang-O1")
        wait_for(lambda: "could not be compiled" in (self.place.unproved / "faster.log").read_text())
        self.expect_program(self.place.call(), QUICK)
        wait_for(lambda: "module.bc" not in left(self.place))
        self.expect_program(self.place.call(), FASTER)
        self.expect("calls of rt", self.place.calls(), ["try"])

    def test_a_faster_program_of_older_sources_is_not_taken(self) -> None:
        self.place.call(STUB_SLOW="6")
        self.place.source.write_text("edited\n")
        self.expect_program(self.place.call(), "-O0 of edited")
        wait_for(lambda: not any("build-" in it.name for it in (self.place.root / "tmp").iterdir()))
        self.expect("made of what was edited", " of edited;" in self.place.call().out, True)
        wait_for(lambda: "module.bc" not in left(self.place))
        self.expect_program(self.place.call(), "-O1 of edited")
        self.expect("calls of rt", self.place.calls(), ["try", "try"])

    def test_lines_are_answered_one_by_one(self) -> None:
        process = self.place.begin()
        assert process.stdin and process.stdout
        self.expect("first line", process.stdout.readline(), f"made: {QUICK}; words: ; folder: work\n")
        for line in ("set A1 1\n", "show A1\n"):
            process.stdin.write(line)
            process.stdin.flush()
            self.expect("reply", process.stdout.readline(), f"line: {line}")
        process.stdin.close()
        self.expect("status", process.wait(SECONDS), PROGRAM_STATUS)

    def test_signals_are_the_programs(self) -> None:
        process = self.place.begin()
        assert process.stdout
        process.stdout.readline()
        process.send_signal(signal.SIGTERM)
        self.expect("status", process.wait(SECONDS), -signal.SIGTERM)

    def test_newer_source_is_built_anew(self) -> None:
        self.place.call()
        self.place.source.write_text("edited\n")
        self.expect_program(self.place.call(), "-O0 of edited")

    def test_source_that_changed_while_it_was_built_is_newer(self) -> None:
        process = self.place.begin(STUB_SECONDS="1")
        wait_for(lambda: self.place.calls() == ["try"])
        self.place.source.touch()
        self.expect_program(ended(process), QUICK)
        self.expect_program(self.place.call(), QUICK)
        self.expect("calls of rt", self.place.calls(), ["try", "try"])

    def test_a_file_that_went_is_a_newer_source(self) -> None:
        file = self.place.root / "crates" / "low" / "src" / "file"
        file.touch()
        self.place.call()
        file.unlink()
        self.place.call()
        self.expect("calls of rt", self.place.calls(), ["try", "try"])

    def test_what_the_program_does_not_rest_on_may_be_newer(self) -> None:
        self.place.call()
        self.place.edit("proofs")
        self.place.edit("src", crate="other")
        self.place.call()
        self.expect("calls of rt", self.place.calls(), ["try"])

    def test_two_first_calls_build_once(self) -> None:
        processes = [self.place.begin(STUB_SECONDS="4", STUB_SLOW="5") for _ in range(2)]
        answers = [ended(it) for it in processes]
        for it in answers:
            self.expect_program(it, QUICK)
        self.expect("calls of rt", self.place.calls(), ["try"])
        self.expect("calls that say that they wait", sum("waits for it" in it.messages for it in answers), 1)

    def test_missing_toolchain_is_said(self) -> None:
        for by in ("whatif", "prove"):
            answer = self.place.call(has_rt=False, by=by)
            self.expect("status", answer.status, FAILED)
            self.expect("output", answer.out, "")
            self.expect("lines", len(answer.messages.splitlines()), 1)
            self.expect("names rt", "isn't on the path" in answer.messages, True)

    def test_failed_first_call_shows_the_end_of_the_log(self) -> None:
        for what, last in (("try", "whatif: `rt try` didn't come to the point where it compiles the program"),
                           ("clang-O0", "whatif: the program could not be compiled")):
            answer = self.place.call(STUB_FAILS=what)
            self.expect("status", answer.status, FAILED)
            self.expect("output", answer.out, "")
            self.expect("last line", answer.messages.splitlines()[-1], last)
            self.expect("log named", f"it could not be built; {self.place.unproved}/build.log ends with:" in answer.messages, True)
        self.expect_program(self.place.call(), QUICK)

    def test_link_from_another_folder_serves(self) -> None:
        (self.place.root / "bin" / "linked").symlink_to("../whatif")
        self.expect_program(self.place.call(by="bin/linked"), QUICK)

    def test_stopped_first_call_leaves_nothing(self) -> None:
        # Ctrl-C goes to all processes of the terminal, TERM to the script alone.
        for send, told in ((os.killpg, signal.SIGINT), (os.kill, signal.SIGTERM)):
            called = len(self.place.calls())
            process = self.place.begin(STUB_SECONDS="4")
            wait_for(lambda: len(self.place.calls()) > called)
            send(process.pid, told)
            self.expect("status", ended(process).status, FAILED)
            self.expect("left", left(self.place), ["build.log", "lock"])
            self.expect("left in the folder for scratch files", list((self.place.root / "tmp").iterdir()), [])
        self.expect_program(self.place.call(), QUICK)

    def test_no_link_is_made_below_the_top_folder(self) -> None:
        """Where there is one, `rt ci` refuses to begin."""
        process = self.place.begin(STUB_SECONDS="2")
        wait_for(lambda: self.place.calls() == ["try"])
        links = [it for folder in ("out", "start") for it in (self.place.root / folder).rglob("*") if it.is_symlink()]
        self.expect("links", links, [])
        self.expect_program(ended(process), QUICK)

    def test_another_layout_is_told_and_each_script_is_tried(self) -> None:
        (self.place.kit / "bin" / "rattle-link").unlink()
        (self.place.root / "work" / "x").write_text("the file")
        answer = self.place.call("--load", "x", "--keep", "5")
        wanted = f"tried, words: --data loaded={self.place.root / 'work' / 'x'} -- --load loaded --keep 5; given: set A1 1\n"
        self.expect("output", answer.out, wanted)
        self.expect("status", answer.status, PROGRAM_STATUS)
        self.expect("says that it is unproved", "not proved yet; " in answer.messages, True)
        self.expect("says how it runs", "Here each call takes a minute" in answer.messages, True)
        self.expect("message of the program", answer.messages.splitlines()[-1], "whatif: a message")
        self.expect("notes of rt", "checked: " in answer.messages or "run=ended" in answer.messages, False)

    def test_a_module_that_does_not_come_is_another_layout(self) -> None:
        for words in ((), ("--load=none",)):
            answer = self.place.call(*words, STUB_TRIES_OTHERWISE="1", STUB_ENDS="0")
            self.expect("output", answer.out, f"tried, words: {' '.join(['--', *words])}; given: set A1 1\n")
            self.expect("status", answer.status, 0)
            self.expect("says that it is unproved", "not proved yet; " in answer.messages, True)
        self.expect("calls of rt", self.place.calls(), ["try", "try", "try"])
        self.place.edit("src")
        self.expect_program(self.place.call(), QUICK)

    def test_proved_program_goes_before_an_unproved_one(self) -> None:
        self.place.call()
        self.place.prove()
        self.expect_program(self.place.call(), PROVED)


if __name__ == "__main__":
    unittest.main()
