"""Tests of bench/headline: what it counts and refuses in a small made repository, and what the pages say of the headline of this one."""

import os
import re
import unittest
from unittest import mock

from tests import ROOT
from tests.support.loading import loaded, result_of
from tests.support.pages import blocks_of
from tests.support.scratch import ScratchTest, made_script, write_files

CODE = """ghost use Rattle.std.specs.Prelude.{◌≡◌, true};
ghost use Rattle.wi_cli.specs.Outcome.{IsRun};
use wi_devices::{Sink, Source};

pub fn run<R: Source>(reader: &mut R) -> bool
    ensures runs { IsRun result ≡ true }
{
}
"""
OUTCOME = """-- What a run does.
use Rattle.std.specs.Prelude.{ℕ, Bool, List}
use Rattle.wi_low.specs.Tree.{Tree}
use Rattle.wi_low.specs.Value.{value}
use Rattle.wi_low.specs.declared.kind.Kind.TheVariants.{Plain}
use Rattle.csv.specs.Reading.{records}

-- as the tree says
abbrev pub IsRun : Bool → Tree → Bool
IsRun b t = value t Plain (records t)
"""
TREE = """-- Trees.
use Rattle.std.specs.Prelude.{ℕ}

mutual
  pub data Tree : Type 0 where
    leaf : ℕ → Tree
    node
        other : Trees → Tree

  pub data Trees : Type 0 where
    none : Trees

-- not cited
pub unused : ℕ
unused = 1
"""
VALUE = """-- Their values.
use Rattle.std.specs.Prelude.{ℕ, Bool, ◌==◌, zero}
use Rattle.wi_low.specs.Tree.{Tree, Trees, leaf, none}

-- ---- a heading

module _ (n : ℕ) where
  -- whether it is n
  is_n : ℕ → Bool
  is_n zero = zero == n
  -- the others
  is_n m = m == n

  abbrev mutual
    -- a tree's
    pub value : Tree → Bool
    value (leaf m) = is_n m
    value t = values none

    pub values : Trees → Bool
    values none =
        is_n 0

unfoldable pub after : ℕ
after = 2
"""
PAGE = """# The definitions

# Part 1: the contract

## A run

1. **Outcome** (`cli/Outcome`): it says what.

## Trees

2. **Tree** (`low/Tree`; OpenFormula, "Trees"): a tree is `Tree`.
   - So it is.
3. **Value** (`low/Value`): what a tree gives (`low/No`).

# Part 2: others

4. **Other** (`low/Other`): another.
"""
FILES = {
    "crates.txt": "wi_low: itoa\nwi_cli: wi_low\n", "docs/DEFINITIONS.md": PAGE, "crates/wi_cli/src/runs.rt": CODE, "crates/wi_cli/specs/Outcome.antt": OUTCOME,
    "crates/wi_low/specs/Tree.antt": TREE, "crates/wi_low/specs/Value.antt": VALUE,
}
NAMES = """\
wi_low: 5 definitions, 2 files, 18 lines, 84 words
  wi_low.specs.Tree: 2 definitions, 1 files, 6 lines, 28 words
    Tree: 4 lines, 18 words
    Trees: 2 lines, 10 words
  wi_low.specs.Value: 3 definitions, 1 files, 12 lines, 56 words
    is_n: 5 lines, 25 words
    value: 4 lines, 20 words
    values: 3 lines, 11 words
wi_cli: 1 definitions, 1 files, 3 lines, 23 words
  wi_cli.specs.Outcome: 1 definitions, 1 files, 3 lines, 23 words
    IsRun: 3 lines, 23 words
beside it the head of run: 2 lines, 16 words
all: 6 definitions, 3 files, 21 lines, 107 words
"""
LEFT = """\
not counted: 1 names of code in the head of run
    Source
not counted: 1 names of csv
  with what they cite of csv: 2 definitions, 1 files, 4 lines, 13 words
    records
not counted: 6 names of std
    Bool
    true
    zero
    ℕ
    ◌==◌
    ◌≡◌
not counted: 1 types that code declares, and their variants
    Plain
"""

TOOL = loaded(ROOT / "bench/headline")
NAMED = re.compile(r"`(?!crates/)([a-z_]+/\w+(?:/\w+)*)\.([\w-]+)`")
PAGE_NAME, FOLLOWED = "docs/DEFINITIONS.md", "docs/FOLLOWED.md"
VALUES = "crates/wi_low/specs/Value.antt"


def headline(*words: str) -> tuple[int, str]:
    """Its status, and what it says."""
    return result_of(TOOL, *words)


class Made(ScratchTest):
    def setUp(self) -> None:
        super().setUp()
        self.root = self.folder.resolve()
        write_files(self.root, FILES)
        # the kit has what `records` is
        kit = self.root / "kit"
        (kit / "rattle/csv/specs").mkdir(parents=True)
        (kit / "rattle/csv/specs/Reading.antt").write_text("pub records : Bool\nrecords = one\n\none : Bool\none = one\n\ntwo : Bool\ntwo = one\n")
        made_script(self.root / "bin/rt", f"echo {kit}/PAGE.md")
        path = mock.patch.dict(os.environ, {"PATH": f"{self.root}/bin:{os.environ['PATH']}"})
        path.start()
        self.addCleanup(path.stop)

    def headline(self, *words: str) -> tuple[int, str]:
        return headline("--repository", str(self.root), *words)

    def change(self, name: str, old: str, new: str) -> None:
        self.assertEqual(FILES[name].count(old), 1, old)
        (self.root / name).write_text(FILES[name].replace(old, new))

    def test_each_definition_is_counted_also_in_a_block_within_a_block(self) -> None:
        status, said = self.headline("--names")
        self.assertEqual((status, said[:len(NAMES)]), (0, NAMES))

    def test_what_is_not_counted(self) -> None:
        status, said = self.headline("--left")
        self.assertEqual((status, said[-len(LEFT):]), (0, LEFT))
        named = {line for line in LEFT.splitlines() if line.startswith("    ")}
        self.assertEqual(self.headline()[1].splitlines()[-5:], [line for line in LEFT.splitlines() if line not in named])

    def test_without_the_kit_names_of_csv_are_counted_alone(self) -> None:
        with mock.patch.dict(os.environ, {"PATH": ""}):
            self.assertIn("not counted: 1 names of csv\nnot counted: 6 names of std\n", self.headline()[1])

    def test_from_another_definition(self) -> None:
        status, said = self.headline("--root", "wi_low.specs.Value.values")
        self.assertEqual((status, said.splitlines()[1]), (0, "all: 3 definitions, 2 files, 10 lines, 46 words"))
        self.assertEqual(self.headline("--root", "wi_low.specs.Value.none_such"), (1, "no definition wi_low.specs.Value.none_such\n"))

    def test_a_line_that_cannot_be_placed_is_refused(self) -> None:
        for old, new, said in (
            ("after = 2", "afterwards = 2", "25: of no definition: afterwards = 2"),
            ("after = 2", "theorem after", "25: of no definition: theorem after"),
            ("after = 2", "}\n\nsection\n", "27: of no definition: section"),
            ("unfoldable pub after : ℕ", "unfoldable pub after", "24: of no definition: unfoldable pub after"),
            ("  abbrev mutual\n", "    abbrev mutual\n", "14: of no definition: abbrev mutual"),
            ("  abbrev mutual\n", "  abbrev mutually\n", "14: of no definition: abbrev mutually"),
            ("  abbrev mutual\n", "  abbrev mutual\n    )\n", "15: of no definition: )"),
            ("module _ (n : ℕ) where\n", "module _ (n : ℕ)\n", "7: of no definition: module _ (n : ℕ)"),
            ("module _ (n : ℕ) where\n", "module _\n    (n : ℕ) where\n", "7: of no definition: module _"),
            ("module _ (n : ℕ) where\n", "module _ (n : ℕ) where\n    is_other : ℕ\n", "8: of no definition: is_other : ℕ"),
            ("        is_n 0", "        pub other : ℕ", "22: of no definition: pub other : ℕ"),
            ("        is_n 0", "        abbrev other : ℕ", "22: of no definition: abbrev other : ℕ"),
            ("pub after : ℕ", "pub values : ℕ", "24: a second definition of this name: unfoldable pub values : ℕ"),
            ("use Rattle.std.specs.Prelude.{ℕ, Bool", "use Rattle.std.specs.Prelude.{\n  ℕ, Bool", "3: of no definition: ℕ, Bool, ◌==◌, zero}"),
        ):
            with self.subTest(new=new):
                self.change(VALUES, old, new)
                self.assertEqual(self.headline(), (1, f"{self.root}/{VALUES}:{said}\n"))

    def test_a_page_that_can_be_read_from_its_top(self) -> None:
        self.assertEqual(self.headline("--order"), (0, ""))

    def test_a_page_that_cannot(self) -> None:
        (self.root / "crates/wi_low/specs/Other.antt").write_text("other : ℕ\nother = 1\n")
        for tree, value, said in (
            ("low/Value", "low/Tree", ["low/Value: value cites Tree of low/Tree, which is named later",
                                       "low/Value: value cites Trees of low/Tree, which is named later",
                                       "low/Value: values cites Trees of low/Tree, which is named later"]),
            ("low/Value`, `Tree", "cli/Outcome", ["cli/Outcome is named twice",
                                                  "low/Value: value cites Tree of low/Tree, which is named later",
                                                  "low/Value: value cites Trees of low/Tree, which is named later",
                                                  "low/Value: values cites Trees of low/Tree, which is named later"]),
            ("low/Tree", "low/Tree", ["low/Value isn't named", "low/Tree is named twice"]),
            ("low/Tree", "low/Value`, `Other", ["low/Other isn't of the headline"]),
            ("low/Tree", "low/Values", ["no file low/Values"]),
            ("low/Tree", "Value", ["no file /Value"]),
        ):
            with self.subTest(tree=tree, value=value):
                (self.root / PAGE_NAME).write_text(PAGE.replace("(`low/Tree`;", f"(`{tree}`;").replace("(`low/Value`)", f"(`{value}`)"))
                self.assertEqual(self.headline("--order"), (1, "".join(f"{PAGE_NAME}: {it}\n" for it in said)))


class Pages(unittest.TestCase):
    """What the pages say of the headline of this repository."""

    def test_the_definitions_can_be_read_from_the_top_of_their_page(self) -> None:
        self.assertEqual(headline("--order"), (0, ""))

    def test_their_page_has_the_counts_of_today(self) -> None:
        said = headline()[1]
        counts = re.search(r"^all: (\d+) definitions, (\d+) files, \d+ lines, (\d+) words$", said, re.MULTILINE)
        left = {what: number for number, what in re.findall(r"^not counted: (\d+) (names of std|types)", said, re.MULTILINE)}
        assert counts, said
        page = " ".join((ROOT / PAGE_NAME).read_text().split())
        self.assertIn(f"Part 1: {counts[1]} definitions in {counts[2]} files, {int(counts[3]):,} words", page)
        self.assertIn(f"{left['names of std']} names of std and {left['types']} types and variants that code declares", page)

    def test_what_followed_names_stands_where_it_says(self) -> None:
        found = {(TOOL.short(it.module), it.name) for it in TOOL.Reading.of_run(ROOT).found}
        named = NAMED.findall((ROOT / FOLLOWED).read_text())
        self.assertGreater(len(named), 50)
        self.assertEqual([it for it in named if it not in found], [])

    def test_followed_has_no_other_name_behind_a_file(self) -> None:
        """One that the test above would pass over."""
        places = re.findall(r"`[a-z_]+/[^`]*`", (ROOT / FOLLOWED).read_text())
        self.assertEqual([it for it in places if not NAMED.fullmatch(it)], ["`crates/wi_cli/specs/Lines.antt`"])

    def test_followed_counts_the_bytes_of_its_script_and_reply(self) -> None:
        page = (ROOT / FOLLOWED).read_text()
        script, reply = (it.text for it in blocks_of(page) if it.words in ("whatif", "reply"))
        records = [line for line in reply.splitlines() if line.startswith('"')]
        self.assertIn(f"the {len(script)} bytes of the script", page)
        self.assertIn(f"their replies, joined: {len(reply) + len(records)} bytes", page)


if __name__ == "__main__":
    unittest.main()
