"""Tests of bench/house, which counts where the code leaves the rules of the house, over a small made repository; and that this one keeps its aims."""

import unittest

from tests import ROOT
from tests.support.loading import loaded, result_of
from tests.support.scratch import ScratchTest, write_files

TOOL = loaded(ROOT / "bench/house")
COMMENTS, SAME, CLAUSES, PRIVATE, LABELS, TYPES = TOOL.AIMS
CODE = "crates/wi_low/src/part/made.rt"
ABOVE = "above its aim"


def line_of(begin: str, columns: int) -> str:
    """A line that begins so and has so many columns."""
    return begin + "x" * (columns - len(begin)) + "\n"


def clause_of(begin: str, columns: int) -> str:
    """A line that begins so, ends with a brace, and has so many columns."""
    return line_of(begin, columns - 2).rstrip("\n") + " }\n"


class House(ScratchTest):
    def told(self, *words: str) -> tuple[int, list[str]]:
        status, said = result_of(TOOL, "--root", str(self.folder), *words)
        return status, said.splitlines()

    def lines(self, rule: str, text: str, file: str = CODE) -> list[int]:
        """The lines of this text, as a file, that are told of a rule."""
        write_files(self.folder, {file: text})
        places = [it for it in self.told("--where")[1] if it.endswith(f"  ({rule})")]
        for it in places:
            self.assertTrue(it.startswith(f"{file}:"), it)
        return [int(it.split(":")[1]) for it in places]

    def count(self, rule: str) -> int:
        rows = [it.removeprefix(rule).split()[0] for it in self.told()[1] if it.startswith(f"{rule} ")]
        self.assertEqual(len(rows), 1)
        return int(rows[0])


class Comments(House):
    def test_a_comment_has_120_columns(self) -> None:
        text = "".join(line_of(begin, columns) for begin in ("//! ", "/// ", "    // ") for columns in (120, 121))
        self.assertEqual(self.lines(COMMENTS, text), [2, 4, 6])

    def test_one_behind_code_counts(self) -> None:
        self.assertEqual(self.lines(COMMENTS, line_of("let a = 1; // ", 121)), [1])

    def test_columns_are_letters_and_not_bytes(self) -> None:
        self.assertEqual(self.lines(COMMENTS, "// " + "é" * 117 + "\n"), [])

    def test_code_has_no_limit_of_columns(self) -> None:
        self.assertEqual(self.lines(COMMENTS, line_of("use ", 130) + f"const A: &str = \"// {'x' * 120}\";\n"), [])

    def test_a_quote_as_a_character_begins_no_text(self) -> None:
        for quote in ("'\"'", "b'\"'", "b'\\''", "'\\u{22}', '\"'", '"\\""', 'r#"""#'):
            self.assertEqual(self.lines(COMMENTS, line_of(f"let a = {quote}; // ", 121)), [1], quote)

    def test_definitions_are_not_asked_for_columns(self) -> None:
        self.assertEqual(self.lines(COMMENTS, line_of("-- ", 130), "crates/wi_low/specs/Made.antt"), [])

    def test_a_comment_does_not_begin_so(self) -> None:
        for begin in ("/// The same", "    // The same, of", "//! the same"):
            self.assertEqual(self.lines(SAME, f"{begin} cells.\n"), [1], begin)
        for begin in ("/// The sameness of", "/// All the same"):
            self.assertEqual(self.lines(SAME, f"{begin} cells.\n"), [], begin)

    def test_a_comment_may_go_on_so(self) -> None:
        self.assertEqual(self.lines(SAME, "/// Some cells.\n/// The same of others.\nfn a() {}\n/// The same.\nfn b() {}\n"), [4])

    def test_a_comment_of_definitions_does_not_begin_so(self) -> None:
        text = "-- Cells.\nuse A\n-- the same cells\na : ℕ\n-- ---- the same of others\n\n-- others\n-- the same\nb : ℕ\n"
        self.assertEqual(self.lines(SAME, text, "crates/wi_low/specs/Inner/Made.antt"), [3, 5])


class Clauses(House):
    def test_a_line_of_a_clause_has_100_columns(self) -> None:
        text = "fn a()\n" + "".join(clause_of(f"    {word} {{ ", columns) for word in ("requires", "ensures one") for columns in (100, 101)) + "{}\n"
        self.assertEqual(self.lines(CLAUSES, text), [3, 5])

    def test_each_line_of_a_clause_counts(self) -> None:
        text = "fn a()\n    ensures { {\n" + line_of("        ", 101) + "    } }\n{\n" + line_of("    let a = ", 101) + "}\n"
        self.assertEqual(self.lines(CLAUSES, text), [3])

    def test_other_lines_may_be_longer(self) -> None:
        text = line_of("#[tactic(", 140) + "fn a()\n    ensures { b }\n" + line_of("    // ", 110) + "    requires { c }\n{}\n"
        self.assertEqual(self.lines(CLAUSES, text), [])

    def test_a_brace_in_a_text_ends_no_clause(self) -> None:
        text = 'fn a()\n    ensures { codes "}" ≡ b\n' + clause_of("        ", 101) + "{}\n"
        self.assertEqual(self.lines(CLAUSES, text), [3])


class PrivateFunctions(House):
    def test_a_private_function_has_a_comment_for_its_readers(self) -> None:
        text = "// What it does.\nfn a() {}\n\n/// What it does.\nfn b() {}\n\n// Public.\npub fn c() {}\n\nimpl A {\n    // Within.\n    const fn d() {}\n}\n"
        self.assertEqual(self.lines(PRIVATE, text), [2, 12])

    def test_attributes_may_stand_between(self) -> None:
        text = "// What it does.\n#[inline]\n#[tactic(auto,\n    using(a))]\nfn a() {}\n"
        self.assertEqual(self.lines(PRIVATE, text), [5])

    def test_a_comment_further_above_is_none_of_it(self) -> None:
        self.assertEqual(self.lines(PRIVATE, "// Of all below.\n\nfn a() {}\n// At the end."), [])

    def test_a_comment_of_more_lines_counts_once(self) -> None:
        self.assertEqual(self.lines(PRIVATE, "// One,\n// and two.\nfn a() {}\n"), [3])


class Labels(House):
    def test_a_label_is_there_to_be_left(self) -> None:
        text = "fn a() {\n    'rows: loop {\n        'cells: while b {\n            break 'rows;\n        }\n    }\n}\n"
        self.assertEqual(self.lines(LABELS, text), [3])

    def test_one_of_another_loop_is_no_use(self) -> None:
        text = "fn a() {\n    'rows: loop {}\n}\nfn b() {\n    'rows: for c in d {\n        continue 'rows;\n    }\n}\n"
        self.assertEqual(self.lines(LABELS, text), [2])

    def test_what_only_looks_like_one_is_none(self) -> None:
        text = "fn a<'a>(b: &'a u8) {\n    // 'rows: loop\n    let c = \"'rows: loop {\";\n    let d = 'e';\n}\n"
        self.assertEqual(self.lines(LABELS, text), [])


class Types(House):
    def shared(self, **crates: str) -> int:
        write_files(self.folder, {f"crates/{name}/src/lib.rt": text for name, text in crates.items()})
        return self.count(TYPES)

    def test_a_name_stands_in_one_crate(self) -> None:
        self.assertEqual(self.shared(low="pub struct A {}\nenum B {}\ntrait C {}\n", high="enum A {}\npub(crate) trait B {}\nstruct D;\n"), 2)

    def test_one_crate_may_have_it_twice(self) -> None:
        self.assertEqual(self.shared(low="struct A {}\nmod b {\n    struct A {}\n}\n", high="struct B;\n"), 0)

    def test_three_crates_count_once(self) -> None:
        self.assertEqual(self.shared(low="struct A;\n", middle="struct A;\n", high="struct A;\n"), 1)

    def test_another_name_for_a_type_is_none(self) -> None:
        self.assertEqual(self.shared(low="type A = u8;\n", high="type A = u16;\n// struct A\n"), 0)

    def test_one_idea_may_have_one_name(self) -> None:
        for name, why in TOOL.ONE_IDEA.items():
            self.assertTrue(why)
            self.assertEqual(self.shared(low=f"enum {name} {{}}\n", high=f"enum {name} {{}}\n"), 0)


class Aims(House):
    def test_a_count_above_its_aim_fails(self) -> None:
        self.assertEqual(self.told()[0], 0)
        for text, rule in ((line_of("// ", 121), COMMENTS), ("// The same.\n", SAME), ("fn a()\n" + clause_of("    ensures { ", 101) + "{}\n", CLAUSES)):
            write_files(self.folder, {CODE: text})
            status, rows = self.told()
            self.assertEqual(status, 1)
            self.assertEqual([it.endswith(ABOVE) for it in rows], [it.startswith(rule) for it in rows])

    def test_what_has_no_aim_is_told(self) -> None:
        write_files(self.folder, {CODE: "// One.\nfn a() {\n    'rows: loop {}\n}\n"})
        status, rows = self.told()
        self.assertEqual(status, 0)
        self.assertEqual([it.split()[-1] for it in rows if it.startswith((PRIVATE, LABELS))], ["1", "1"])


class ThisRepository(unittest.TestCase):
    def test_it_keeps_its_aims(self) -> None:
        status, said = result_of(TOOL)
        self.assertEqual(status, 0, f"\n{said}bench/house --where tells where")

    def test_what_is_allowed_is_there(self) -> None:
        places = TOOL.types(TOOL.sources_of(ROOT, "*/src/**/*.rt"))
        for name in TOOL.ONE_IDEA:
            self.assertGreater(len(places.get(name, ())), 1, name)
