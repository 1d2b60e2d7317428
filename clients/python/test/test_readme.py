"""The example of README.md runs, and gives the values that its comments say."""

import ast
import io
import re
import tempfile
import unittest
from concurrent.futures import ThreadPoolExecutor
from contextlib import redirect_stdout
from fractions import Fraction
from importlib.util import find_spec
from pathlib import Path

README = Path(__file__).resolve().parents[1] / "README.md"


def checked(source: str) -> str:
    """The source, with each expression whose comment begins with a Fraction compared with it."""
    lines = []
    for line in source.splitlines():
        found = re.fullmatch(r"( *)(book[.\[].*?) +# (Fraction\([0-9, ]+\)).*", line)
        lines.append(f"{found[1]}check({found[2]}, {found[3]})" if found else line)
    return "\n".join(lines)


class ReadmeTest(unittest.TestCase):
    def test_example(self) -> None:
        found = re.search(r"```python\n(.*?)```", README.read_text(), re.DOTALL)
        assert found
        source = found[1]
        if not find_spec("pandas"):
            source = source.replace(".frame()", "")
        ast.parse(source)
        compared = []

        def check(value: object, wanted: Fraction) -> None:
            compared.append(value)
            self.assertEqual(value, wanted)

        printed = io.StringIO()
        with redirect_stdout(printed):
            exec(checked(source), {"check": check, "Fraction": Fraction})
        self.assertEqual(compared, [92, 140, 275])
        self.assertEqual(printed.getvalue().splitlines()[0], "E18 B1")
        self.assertIn("Change(address='B1', kind='N', value=Fraction(260, 1))", printed.getvalue())

    @unittest.skipUnless(find_spec("pandas"), "pandas isn't installed")
    def test_sweeps(self) -> None:
        import pandas

        import whatif

        source = re.findall(r"```python\n(.*?)```", README.read_text(), re.DOTALL)[1]
        with tempfile.TemporaryDirectory() as folder, whatif.Workbook() as book:
            model = Path(folder, "tariff.whatif")
            book["A1"] = [["consumption", 250], ["price", 0.32], ["fee", 12], ["bill", whatif.Formula("=[.B1]*[.B2]+[.B3]")]]
            book.save(model)
            answers = [it.partition("  ")[0] for it in source.splitlines()[1:]]
            known = {"pandas": pandas, "whatif": whatif, "book": book, "Fraction": Fraction, "dask_client": ThreadPoolExecutor(1)}
            exec(source.splitlines()[0], known)
            found = [eval(it.replace("tariff.whatif", str(model)).replace('"work"', repr(f"{folder}/work")), known) for it in answers]
            known["dask_client"].shutdown()
        self.assertEqual([found[0]["B4"].tolist(), list(found[0].index), found[1]["B4"].tolist()], [[92, 124], ["now", "winter"], [92, 124]])
        self.assertEqual(found[2], [{"B4": 92}, {"B4": 140}])


if __name__ == "__main__":
    unittest.main()
