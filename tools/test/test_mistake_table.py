"""The mistakes in mistakes.txt: what is said of each, and that nothing else is."""

import re
import tempfile
import unittest
from dataclasses import dataclass, field
from pathlib import Path

from whatif_tools.check import Check

TABLE = Path(__file__).resolve().parent / "mistakes.txt"
SIGNS = {"<TAB>": "\t", "<NBSP>": "\u00a0", "<SPACE>": " "}
SAID = re.compile(r"-> ([0-9]+):([0-9]+) (.*)")


@dataclass
class Mistake:
    title: str
    script: list[str] = field(default_factory=list)
    said: list[tuple[int, int, str]] = field(default_factory=list)


def mistakes() -> list[Mistake]:
    """The mistakes of the table; the lines before the first title are its notation."""
    found: list[Mistake] = []
    for line in TABLE.read_text().splitlines():
        said = SAID.fullmatch(line)
        if line.startswith("== "):
            found.append(Mistake(line.removeprefix("== ")))
        elif found and said is not None:
            found[-1].said.append((int(said[1]), int(said[2]), said[3]))
        elif found and line:
            found[-1].script.append(line)
    return found


def plain(script: list[str]) -> str:
    text = "\n".join(script)
    for sign, character in SIGNS.items():
        text = text.replace(sign, character)
    return text


class Table(unittest.TestCase):
    def test_what_is_said(self) -> None:
        known = mistakes()
        self.assertGreaterEqual(len(known), 150)
        with tempfile.TemporaryDirectory() as folder:
            path = Path(folder) / "s.whatif"
            for mistake in known:
                path.write_text(plain(mistake.script))
                found = Check.of(path).findings()
                with self.subTest(mistake.title):
                    places = [(line, column) for line, column, _ in mistake.said]
                    self.assertEqual([(one.line, one.column) for one in found], places, [one.message for one in found])
                    for one, (_, _, part) in zip(found, mistake.said):
                        self.assertIn(part, one.message)
                        self.assertTrue(part)
