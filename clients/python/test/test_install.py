"""The client is installed without a network, and its types are whole."""

import os
import shutil
import subprocess
import sys
import tempfile
import unittest
import zipfile
from importlib.util import find_spec
from pathlib import Path

CLIENT = Path(__file__).resolve().parents[1]
BACKEND = CLIENT / "build_backend" / "plain_wheel.py"


class InstallTest(unittest.TestCase):
    def setUp(self) -> None:
        kept = tempfile.TemporaryDirectory()
        self.addCleanup(kept.cleanup)
        self.folder = Path(kept.name)

    @unittest.skipUnless(find_spec("pip"), "pip isn't installed")
    def test_pip_without_a_network(self) -> None:
        words = [sys.executable, "-m", "pip", "install", "--no-index", "--disable-pip-version-check", "-q", "--target", str(self.folder), str(CLIENT)]
        ran = subprocess.run(words, capture_output=True, text=True, timeout=300)
        self.assertEqual(ran.returncode, 0, ran.stderr)
        script = (
            "import whatif, whatif.hints\n"
            "with whatif.Workbook() as book:\n"
            "    book['B1'] = 5\n"
            "    print(whatif.__file__, book['B1'], whatif.hints.hint_for('E02', 'sett A1 5', []))\n"
        )
        environment = {**os.environ, "PYTHONPATH": str(self.folder)}
        ran = subprocess.run([sys.executable, "-c", script], capture_output=True, text=True, cwd="/", env=environment, timeout=60)
        hint = "is set meant?" if sys.version_info >= (3, 10) else "None"
        self.assertEqual(ran.stdout, f"{self.folder}/whatif/__init__.py 5 {hint}\n", ran.stderr)
        tool = subprocess.run([self.folder / "bin" / "whatif-sweep", "--help"], capture_output=True, text=True, env=environment, timeout=60)
        self.assertIn("usage: whatif-sweep MODEL --out CELLS", tool.stdout)

    def test_a_wheel_has_all_modules(self) -> None:
        names = [subprocess.run([sys.executable, BACKEND, self.folder], capture_output=True, text=True, check=True).stdout.strip() for _ in range(2)]
        first = (self.folder / names[0]).read_bytes()
        self.assertEqual((self.folder / names[1]).read_bytes(), first)
        with zipfile.ZipFile(self.folder / names[0]) as archive:
            inside = set(archive.namelist())
            self.assertIsNone(archive.testzip())
        wanted = {str(it.relative_to(CLIENT)) for it in (CLIENT / "whatif").rglob("*.py")} | {"whatif/py.typed", "whatif_tools/hints.py"}
        self.assertLessEqual(wanted, inside)
        self.assertFalse([it for it in inside if "__pycache__" in it])

    @unittest.skipUnless(shutil.which("mypy"), "mypy isn't installed")
    def test_types(self) -> None:
        words = ["mypy", "--cache-dir", str(self.folder), "-p", "whatif"]
        ran = subprocess.run(words, capture_output=True, text=True, cwd=CLIENT, timeout=300)
        self.assertEqual(ran.returncode, 0, ran.stdout)

    def test_nothing_but_the_standard_library(self) -> None:
        script = "import sys, whatif; print(sorted({it.partition('.')[0] for it in sys.modules} & {'pandas', 'numpy', 'distributed', 'cloudpickle'}))"
        ran = subprocess.run([sys.executable, "-c", script], capture_output=True, text=True, env={**os.environ, "PYTHONPATH": str(CLIENT)})
        self.assertEqual(ran.stdout, "[]\n", ran.stderr)


if __name__ == "__main__":
    unittest.main()
