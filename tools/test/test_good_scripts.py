"""No false alarm: what is found in the scripts of the pages and in the worked scripts is what they are about."""

import re
import tempfile
import unittest
from pathlib import Path

from pages import page_of
from whatif_tools.check import Check
from whatif_tools.finding import Finding, Kind
from whatif_tools.program import ROOT

PAGES = ("README.md", "docs/START.md", "docs/MANUAL.md", "docs/TROUBLE.md", "docs/FROM.md")
GOES_ON = PAGES[:2]
"""In these a block goes on with the script of those before it, unless it begins with a comment."""

ABOUT = {
    "docs/START.md": {"[.B8]", "'12,5'", "#VALUE!"},
    "docs/TROUBLE.md": {
        *("E18", "goes on showing", "'85%'", "1 of the 2 cells of XCOLUMN"),
        *("B1 shows #CIRC!", "B3 shows #NUM!", "B201 shows #NUM!", "A3 shows #NUM!"),
    },
}
"""What the scripts of pages show on purpose."""

ABOUT_SCRIPTS = {
    "formula-command": {Kind.TEXT_FOR_NUMBER},
    "import-and-export": {Kind.FORMULA_AS_TEXT},
    "input-is-not-read": {Kind.UNREAD_INPUT},
    "look-ups-again": {Kind.OVER_FORMULA},
    "scenario-cuts-no-cycle": {Kind.ERROR_IN_REPLY},
    "second-replacement-reads-first-input": {Kind.UNREAD_INPUT},
    "table-one-input": {Kind.ERROR_IN_REPLY},
    "unequal-records": {Kind.MORE_FIELDS},
    "which-lines-are-data": {Kind.COMMAND_AS_DATA},
}
"""What the worked scripts are about, besides refusals and errors in cells."""


def findings(script: str) -> list[Finding]:
    with tempfile.TemporaryDirectory() as folder:
        path = Path(folder) / "s.whatif"
        path.write_text(script)
        return Check.of(path).findings()


class Good(unittest.TestCase):
    def test_pages(self) -> None:
        for page in PAGES:
            met: set[str] = set()
            script = ""
            for block in page_of(ROOT / page).blocks:
                if block.language != "whatif":
                    continue
                script = script + block.text if page in GOES_ON and not block.text.startswith("#") else block.text
                for found in findings(script):
                    with self.subTest(f"{page}:{block.line}, line {found.line}"):
                        about = {part for part in ABOUT.get(page, set()) if re.search(re.escape(part), found.message)}
                        self.assertTrue(about, found.message)
                        met |= about
            self.assertEqual(met, ABOUT.get(page, set()), page)

    def test_worked_scripts(self) -> None:
        """There are as many replies as commands, and each refusal is found."""
        scripts = sorted((ROOT / "tests" / "scripts").glob("*.whatif"))
        self.assertGreater(len(scripts), 50)
        for path in scripts:
            with self.subTest(path.name):
                check = Check.of(path)
                found = check.findings()
                self.assertEqual(len(check.answer.replies), len(check.commands))
                refused = [one for one in found if one.kind is Kind.REFUSED]
                self.assertEqual(len(refused), sum(reply.code is not None for reply in check.answer.replies))
                kinds = {one.kind for one in found} - {Kind.REFUSED, Kind.ERROR_STARTS}
                self.assertEqual(kinds, ABOUT_SCRIPTS.get(path.stem, set()))
