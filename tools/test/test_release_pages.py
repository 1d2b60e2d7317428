"""The manual pages of tools/release against what programs say, the version, and whose code is in the program."""

import re
import shutil
import subprocess
import unittest
from pathlib import Path

from packing import VERSION
from release_tools import pages
from release_tools.licences import copyright_of
from whatif_tools.program import ROOT, call, program


class Pages(unittest.TestCase):
    def test_the_programs_page_has_each_command_and_refusal_of_its_help(self) -> None:
        said = call(["--help"], b"").stdout.decode()
        page = pages.page("whatif", said, "whatif 1", "2026-02-03", pages.statuses((ROOT / "docs" / "MANUAL.md").read_text()))
        names = re.findall(r"^  ([a-z]+(?: [A-Z]+)*|E[0-9]{2})  ", said, re.MULTILINE)
        self.assertGreater(len(names), 30)
        for name in names:
            self.assertIn(f"\n.B {name}\n", page)
        for option in ("\\-\\-load", "\\-\\-keep", "\\-h, \\-\\-help"):
            self.assertIn(f"\n.B {option}", page)
        self.assertRegex(page, r"(?s)\.SH EXIT STATUS\n\.TP\n\.B 0\nthe end of the input.*\.B 5\n")

    def test_a_page_of_a_help_text(self) -> None:
        said = """usage: tool [-h] [--cut N]
            FILE

tool: cuts what is given. It says \\n
.and no more:

  an example - as it stands

positional arguments:
  FILE        the file

optional arguments:
  --cut N     cut by N, of which
              there are many
  --long-one-that-needs-a-line N
              what it does
"""
        wanted = """.TH TOOL 1 "2026-02-03" "whatif 1" "User Commands"
.SH NAME
tool \\- cuts what is given
.SH SYNOPSIS
.B tool [\\-h] [\\-\\-cut N] FILE
.SH DESCRIPTION
.PP
tool: cuts what is given. It says \\en
\\&.and no more:
.PP
.nf
  an example \\- as it stands
.fi
.SH POSITIONAL ARGUMENTS
.TP
.B FILE
the file
.SH OPTIONS
.TP
.B \\-\\-cut N
cut by N, of which there are many
.TP
.B \\-\\-long\\-one\\-that\\-needs\\-a\\-line N
what it does
.SH SEE ALSO
"""
        self.assertEqual(pages.page("tool", said, "whatif 1", "2026-02-03", [".SH SEE ALSO"]), wanted)

    def test_the_page_alone(self) -> None:
        words = [str(ROOT / "tools" / "release"), "--program", program(), "--man"]
        shown = subprocess.run([*words, "whatif-check"], capture_output=True, text=True)
        self.assertTrue(shown.stdout.startswith('.TH WHATIF\\-CHECK 1 "'), shown.stderr)
        for other in ([*words, "nothing"], [words[0], "--program", "/no/program", "--man", "whatif-check"]):
            refused = subprocess.run(other, capture_output=True, text=True)
            self.assertEqual((refused.returncode, refused.stderr[:9], refused.stderr.count("\n")), (1, "release: ", 1))


class TheRepository(unittest.TestCase):
    def test_one_version(self) -> None:
        self.assertRegex(VERSION, r"^[0-9]+\.[0-9]+\.[0-9]+$")
        self.assertIn(f'\nversion = "{VERSION}"\n', (ROOT / "clients" / "python" / "pyproject.toml").read_text())
        parts = re.findall(r"^## (.*)$", (ROOT / "CHANGELOG.md").read_text(), re.MULTILINE)
        self.assertEqual(parts[0], VERSION)

    @unittest.skipUnless(shutil.which("rt"), "rt isn't on the path")
    def test_the_toolchains_libraries(self) -> None:
        kit = Path(subprocess.run(["rt", "doc"], capture_output=True, text=True, check=True).stdout.strip()).parent
        said = copyright_of(ROOT, kit, VERSION)
        for name in ("csv", "clap", "indexmap", "itoa", "memchr", "smallvec", "thiserror"):
            self.assertRegex(said, rf"== {name}: (UN)?LICENSE")
        self.assertIn("\n== std: ", said)


if __name__ == "__main__":
    unittest.main()
