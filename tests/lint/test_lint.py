"""All Python of the repository, looked over; and faults that are planted, each of which must be found."""

import shutil
import unittest

from tests import ROOT
from tests.lint.sources import Sources, configuration, ignored_without_a_reason, mypy, other_paths, pycodestyle, pyflakes, ruff
from tests.support.scratch import ScratchTest, made_program

needs_pyflakes = unittest.skipUnless(shutil.which("pyflakes3"), "no pyflakes3")
needs_pycodestyle = unittest.skipUnless(shutil.which("pycodestyle") and configuration(ROOT), "no pycodestyle, or a Python before 3.11")
needs_mypy = unittest.skipUnless(shutil.which("mypy"), "no mypy")

ALL = Sources.below(ROOT)


class Repository(ScratchTest):
    def assert_nothing(self, found: list[str]) -> None:
        self.assertEqual(found, [], "\n".join(found))

    def test_all_is_looked_over(self) -> None:
        for name in ("tools/whatif_tools/check.py", "clients/python/whatif/workbook.py", "tests/support/closing.py", "bench/models.py"):
            self.assertIn(name, ALL.modules)
        for name in ("tests/run", "tools/whatif-check", "bench/run", "examples/draw/draw", "clients/python/test/run"):
            self.assertIn(name, ALL.programs)

    @needs_pyflakes
    def test_pyflakes(self) -> None:
        self.assert_nothing(pyflakes(ALL))

    @needs_pycodestyle
    def test_pycodestyle(self) -> None:
        self.assert_nothing(pycodestyle(ALL))

    def test_ruff_where_it_is(self) -> None:
        self.assert_nothing(ruff(ALL))

    @needs_mypy
    def test_mypy(self) -> None:
        self.assert_nothing(mypy(ALL, self.folder))

    def test_the_path(self) -> None:
        self.assert_nothing(other_paths(ALL))

    def test_what_is_ignored_has_a_reason(self) -> None:
        self.assert_nothing(ignored_without_a_reason(ALL))


class Planted(ScratchTest):
    def setUp(self) -> None:
        super().setUp()
        self.root, self.scratch = self.folder / "root", self.folder / "scratch"
        self.scratch.mkdir()
        made_program(self.root / "pyproject.toml", (ROOT / "pyproject.toml").read_text())

    def planted(self, name: str, text: str) -> Sources:
        made_program(self.root / name, text)
        return Sources.below(self.root)

    def assert_found(self, found: list[str], *parts: str) -> None:
        for part in parts:
            self.assertTrue(any(part in line for line in found), f"{part} isn't among\n" + "\n".join(found))

    @needs_pyflakes
    def test_pyflakes(self) -> None:
        self.assertEqual(pyflakes(self.planted("well.py", "import os\n\nprint(os.sep)\n")), [])
        self.assert_found(pyflakes(self.planted("tools/program", "#!/usr/bin/env python3\nimport os\n")), "tools/program:2:1: 'os' imported but unused")

    @needs_pycodestyle
    def test_pycodestyle(self) -> None:
        self.assertEqual(pycodestyle(self.planted("well.py", f"x = [0][0 :]\ny = '{'y' * 150}'\n")), [])
        self.assert_found(pycodestyle(self.planted("program", f"#!/usr/bin/env python3\ny = '{'y' * 160}'\nz=1\n")), "program:2:161: E501", "program:3:2: E225")

    @needs_mypy
    def test_mypy(self) -> None:
        self.planted("tests/__init__.py", "")
        self.planted("tests/well.py", "def one(x: int) -> int:\n    return x\n")
        self.planted("tests/run", "#!/usr/bin/env python3\nfrom tests.well import one\n\none('1')\n")
        found = mypy(self.planted("tests/amiss.py", "def two(x):\n    return x\n"), self.scratch)
        self.assert_found(found, "tests/amiss.py:1: error: Function is missing a type annotation", 'tests/run:4: error: Argument 1 to "one" has')
        self.assertEqual(len(found), 2)

    def test_the_path(self) -> None:
        line = "sys.path.insert(0, str(Path(__file__).resolve().parents[2]))\n"
        self.assertEqual(other_paths(self.planted("tests/x/run", f"#!/usr/bin/env python3\n{line}")), [])
        self.assert_found(other_paths(self.planted("tests/x/other.py", 'sys.path.append("x")\n')), 'tests/x/other.py:1: sys.path.append("x")')

    def test_what_is_ignored_has_a_reason(self) -> None:
        self.assertEqual(ignored_without_a_reason(self.planted("well.py", "x = 1  # type: ignore[assignment]  # why\n")), [])
        self.assert_found(ignored_without_a_reason(self.planted("amiss.py", "x = 1  # type: ignore[assignment]\n")), "amiss.py:1: ")


if __name__ == "__main__":
    unittest.main()
