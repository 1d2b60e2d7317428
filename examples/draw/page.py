#!/usr/bin/env python3
"""Takes a picture of the page that whatif-report makes of hero.whatif, with headless Chromium: ../report.png."""

import sys
import tempfile
from pathlib import Path

sys.path.insert(0, str(Path(__file__).resolve().parents[2]))

from tests import ROOT
from tests.support.browser import Browser, found
from whatif_tools.report.main import main as report

EXAMPLES = ROOT / "examples"
WIDTH = 1000
PARTS = (1, 2)
"""The table with what moves its cell, and the comparison."""


def main() -> None:
    path = found()
    if path is None:
        sys.exit("no Chromium: apt-get install chromium")
    with tempfile.TemporaryDirectory() as folder:
        page = Path(folder) / "hero.html"
        report([str(EXAMPLES / "hero.whatif"), "-o", str(page)])
        browser = Browser(path)
        try:
            browser.open(page, WIDTH)
            boxes = [browser.ask(f'document.querySelectorAll("section")[{part}].getBoundingClientRect().toJSON()') for part in PARTS]
            top, bottom = boxes[0]["top"] - 8, boxes[-1]["bottom"] + 8
            (EXAMPLES / "report.png").write_bytes(browser.picture({"x": 0, "y": top, "width": WIDTH, "height": bottom - top}))
        finally:
            browser.close()


if __name__ == "__main__":
    main()
