"""The notebook of examples/: what it says, worked out by Python's fractions; and Jupyter runs it, where it is installed."""

import json
import os
import re
import shutil
import tempfile
import unittest
from collections.abc import Iterator
from contextlib import contextmanager
from fractions import Fraction
from importlib.util import find_spec
from pathlib import Path
from typing import Any
from unittest import mock

CLIENT = Path(__file__).resolve().parents[1]
EXAMPLES = CLIENT.parents[1] / "examples"
NOTEBOOK = EXAMPLES / "planner.ipynb"


def bill(consumption: int, third: str, tax: str = "0.19") -> Fraction:
    """The bill of a month, by hand: 100 kWh at 0.21, 200 at 0.29, the rest at the third price, a fee, a tax, to the cent."""
    steps = min(consumption, 100) * Fraction("0.21") + max(0, min(consumption, 300) - 100) * Fraction("0.29")
    exact = (steps + max(0, consumption - 300) * Fraction(third) + Fraction("11.90")) * (1 + Fraction(tax)) * 100
    return Fraction((2 * exact.numerator + exact.denominator) // (2 * exact.denominator), 100)


@contextmanager
def beside_the_model() -> "Iterator[Path]":
    """A folder with the model, as the current one."""
    before = os.getcwd()
    settings = {"PYTHONPATH": str(CLIENT), "MPLBACKEND": "agg", "PYDEVD_DISABLE_FILE_VALIDATION": "1"}
    with tempfile.TemporaryDirectory() as folder, mock.patch.dict(os.environ, settings):
        shutil.copy(EXAMPLES / "tariff.whatif", folder)
        os.chdir(folder)
        try:
            yield Path(folder)
        finally:
            os.chdir(before)


@unittest.skipUnless(find_spec("pandas"), "pandas isn't installed")
class NotebookTest(unittest.TestCase):
    def setUp(self) -> None:
        self.cells = [it for it in json.loads(NOTEBOOK.read_text())["cells"] if it["cell_type"] == "code"]

    def test_what_it_says(self) -> None:
        known: dict[str, Any] = {}
        with beside_the_model() as folder:
            for cell in self.cells:
                source = "".join(cell["source"])
                if ".plot(" not in source or find_spec("matplotlib"):
                    exec(source, known)
            self.assertIn("set B12 =ROUND", (folder / "my_tariff.whatif").read_text())
        self.assertEqual([known["bill"], known["more"], known["taxes"]], [bill(420, "0.38"), bill(650, "0.38"), bill(650, "0.38", "0.07")])
        bills = known["bills"]
        for consumption in range(0, 801, 100):
            for price in ("0.34", "0.38", "0.45"):
                self.assertEqual(bills.loc[consumption, float(price)], float(bill(consumption, price)))
        year, answers = known["year"], known["answers"]
        wanted = [bill(consumption, str(price)) for consumption, price in zip(year["B1"].tolist(), year["B6"].tolist())]
        self.assertEqual(answers["B12"].tolist(), [float(it) for it in wanted])
        self.assertEqual(self.said("answers[\"B12\"].sum()"), str(float(sum(wanted))))
        self.assertEqual(self.said("seek"), "504")
        self.assertTrue(bill(503, "0.38") < 200 <= bill(504, "0.38"))

    def said(self, part: str) -> str:
        """What is stored below the cell with such a part."""
        (cell,) = [it for it in self.cells if part in "".join(it["source"])]
        return "".join(cell["outputs"][0]["data"]["text/plain"])

    @unittest.skipUnless(find_spec("nbclient") and find_spec("ipykernel") and find_spec("matplotlib"), "Jupyter or Matplotlib isn't installed")
    def test_jupyter_shows_what_is_stored(self) -> None:
        import nbclient
        import nbformat

        book = nbformat.read(NOTEBOOK, as_version=4)
        stored = [numbers(it) for it in book.cells]
        with beside_the_model():
            nbclient.NotebookClient(book, timeout=120, kernel_name="python3").execute()
        self.assertEqual([numbers(it) for it in book.cells], stored)
        self.assertTrue(any(stored))


def numbers(cell: dict[str, Any]) -> list[str]:
    """The numbers that a cell shows as text, in order of size: lines may break elsewhere in another pandas."""
    texts = ["".join(it["data"].get("text/plain", "")) for it in cell.get("outputs", []) if "image/png" not in it["data"]]
    return sorted(re.findall(r"[0-9]+\.?[0-9]*", " ".join(texts)))


if __name__ == "__main__":
    unittest.main()
