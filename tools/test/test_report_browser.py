"""The page of whatif-report in a real browser, at two widths, in light and dark, and on paper."""

from __future__ import annotations

import contextlib
import csv
import io
import re
import tempfile
import time
import unittest
from fractions import Fraction
from itertools import product
from pathlib import Path

from tests.support import browser
from tests.support.browser import Browser
from whatif.drawing.colours import NEEDED, contrast
from whatif.drawing.values import shown
from whatif_tools.report.main import main

FOLDER = Path(__file__).resolve().parent
WIDTHS = (1200, 360)
A4_WIDTH, A4_HEIGHT = 688, 1017
"""The space inside of the margins of 14 mm, at 96 pixels an inch."""

OVERLAPS = """[...document.querySelectorAll("svg.curves")].flatMap(svg => {
  const texts = [...svg.querySelectorAll("text")].map(text => [text.firstChild.data, text.getBoundingClientRect()]);
  return texts.flatMap(([one, a], n) => texts.slice(n + 1).filter(([_, b]) =>
    Math.min(a.right, b.right) - Math.max(a.left, b.left) > 1 && Math.min(a.bottom, b.bottom) - Math.max(a.top, b.top) > 3
  ).map(([other]) => one + " / " + other));
})"""
OUTSIDE = """[...document.querySelectorAll("svg.curves")].flatMap(svg => {
  const whole = svg.getBoundingClientRect();
  return [...svg.querySelectorAll("text")].filter(text => {
    const box = text.getBoundingClientRect();
    return box.left < whole.left - 1 || box.right > whole.right + 1 || box.top < whole.top - 1 || box.bottom > whole.bottom + 1;
  }).map(text => text.firstChild.data);
})"""
STICKING_OUT = """[...document.querySelectorAll("section > *, h1, p, figure, svg, summary, pre")].filter(
  node => !node.closest(".wide") && node.getBoundingClientRect().right > innerWidth + 1).map(node => node.outerHTML.slice(0, 80))"""
COLOURS = """[...document.querySelectorAll("h1, h2, h3, p, th, td, small, a, li, code, dt, dd, summary, pre span, b, caption, button")].map(node => {
  let ground = node;
  while (ground && getComputedStyle(ground).backgroundColor === "rgba(0, 0, 0, 0)") ground = ground.parentElement;
  return [node.textContent.trim() && getComputedStyle(node).color, getComputedStyle(ground || document.body).backgroundColor];
}).filter(pair => pair[0]).map(pair => pair.join("|"))"""


def hexadecimal(colour: str) -> str:
    red, green, blue = (int(part) for part in re.findall(r"\d+", colour)[:3])
    return f"#{red:02x}{green:02x}{blue:02x}"


@unittest.skipUnless(browser.found(), "no Chromium: apt-get install chromium")
class InBrowser(unittest.TestCase):
    folder: tempfile.TemporaryDirectory[str]
    browser: Browser
    path: Path
    odd: Path

    @classmethod
    def setUpClass(cls) -> None:
        cls.folder = tempfile.TemporaryDirectory()
        cls.path, cls.odd = (cls.page_of(FOLDER / name) for name in ("report.whatif", "report_odd.whatif"))
        try:
            cls.browser = Browser(browser.found() or "")
        except (OSError, TimeoutError) as error:
            cls.folder.cleanup()
            raise unittest.SkipTest(f"Chromium doesn't start: {error}") from error

    @classmethod
    def page_of(cls, script: Path) -> Path:
        page = Path(cls.folder.name) / f"{script.stem}.html"
        with contextlib.redirect_stderr(io.StringIO()):
            main([str(script), "-o", str(page)])
        return page

    @classmethod
    def tearDownClass(cls) -> None:
        cls.browser.close()
        cls.folder.cleanup()

    def test_widths(self) -> None:
        """Nothing sticks out, no label covers another, nothing is complained of or fetched; so with long names, huge and tiny numbers."""
        for page, width in product((self.path, self.odd), WIDTHS):
            with self.subTest(page=page.name, width=width):
                self.browser.open(page, width)
                self.assertEqual(self.browser.ask("innerWidth"), width)
                self.assertEqual(self.browser.ask("document.documentElement.scrollWidth"), width)
                self.assertGreater(self.browser.ask('document.querySelectorAll("svg.curves text").length'), 40)
                for script in (OVERLAPS, OUTSIDE, STICKING_OUT):
                    self.assertEqual(self.browser.ask(script), [])
                self.assertEqual(self.browser.faults(), [])
                self.assertEqual(self.browser.requests(), [page.resolve().as_uri()])

    def test_labels_can_be_read(self) -> None:
        """Letters are 9 pixels high at least where the page is narrow."""
        self.browser.open(self.path, 360)
        sizes = self.browser.ask('[...document.querySelectorAll("svg.curves text")].map(text => text.getBoundingClientRect().height)')
        self.assertGreaterEqual(min(sizes), 9)

    def test_colours(self) -> None:
        """What is written can be read on what is behind it, as the browser has mixed both, in light and dark."""
        grounds = []
        for dark in (False, True):
            self.browser.open(self.path, 1200, dark)
            pairs = {tuple(pair.split("|")) for pair in self.browser.ask(COLOURS)}
            self.assertGreater(len(pairs), 8)
            for ink, ground in pairs:
                self.assertGreaterEqual(contrast(hexadecimal(ink), hexadecimal(ground)), NEEDED, (dark, ink, ground))
            grounds.append(self.browser.ask("getComputedStyle(document.body).backgroundColor"))
        self.assertNotEqual(*grounds)

    def test_links(self) -> None:
        """Each line that is told of is in the listing."""
        self.browser.open(self.path, 1200)
        links = 'document.querySelectorAll("a[href^=\\"#\\"]")'
        self.assertGreater(self.browser.ask(f"{links}.length"), 8)
        self.assertEqual(self.browser.ask(f"[...{links}].filter(a => !document.querySelector(a.hash)).length"), 0)

    def test_copy(self) -> None:
        """The button copies exact numbers, also those that are drawn rounded."""
        self.browser.open(self.path, 1200)
        self.browser.ask('Object.defineProperty(navigator, "clipboard", {value: {writeText: async text => { window.copied = text; }}}), 1')
        table = '[...document.querySelectorAll("table")].find(table => table.caption.textContent.startsWith("profit of a customer B10 by"))'
        copied = self.browser.ask(f'(async () => {{ {table}.querySelector("button").click(); await 0; return window.copied; }})()')
        customers = (110, 140, 180, 200, 240, 300)
        profits = [shown((Fraction(16, 10) * Fraction(27, 10) * n - 120 - 9 * 18) / n) for n in customers]
        wanted = ["customers of a day\tprofit of a customer", "0\t#DIV/0!", *(f"{n}\t{profit}" for n, profit in zip(customers, profits))]
        self.assertEqual(copied.split("\n"), wanted)
        self.assertIn("483/275", profits)

    def test_file_in_the_page(self) -> None:
        """The numbers of a large table are saved by their link, without a network."""
        self.browser.open(self.path, 1200)
        self.browser.send("Page.setDownloadBehavior", behavior="allow", downloadPath=self.folder.name)
        self.browser.ask('document.querySelector("a[download]").click(), 1')
        saved = Path(self.folder.name) / "B9_line_42.csv"
        limit = time.monotonic() + 30
        while not saved.exists() and time.monotonic() < limit:
            time.sleep(0.1)
        head, first, *rows = list(csv.reader(saved.read_text(encoding="utf-8").splitlines()))
        self.assertEqual((head[:3], first[:3], len(rows)), (["customers of a day", "0.1", "0.2"], ["0", "-282", "-282"], 60))
        self.assertEqual(rows[-1][-1], shown(Fraction(16, 10) * 360 * (Fraction(62, 10) - Fraction(21, 10)) - 282))

    def test_texts_that_are_markup(self) -> None:
        """Nothing of a cell, a name or a comment is run."""
        nasty = '<img src=x onerror="window.hit=1"><script>window.hit=1</script>"\'>'
        script = Path(self.folder.name) / "nasty.whatif"
        cells = f"set A1 '{nasty}\nset B1 5\nset B2 =[.B1]*2\nset A2 '{nasty}\n"
        script.write_text(f"# {nasty}\n{cells}# so {nasty}\nshow A1:B2\ntable B2 B1 B1\n{nasty}\n")
        self.browser.open(self.page_of(script), 1200)
        self.assertIsNone(self.browser.ask("window.hit"))
        self.assertEqual(self.browser.ask('document.querySelectorAll("img, script").length'), 1)
        self.assertEqual(self.browser.ask("document.title"), nasty)
        self.assertEqual(self.browser.faults(), [])

    def test_paper(self) -> None:
        """As many pages of A4 as the printed page is high, or up to two more where a drawing isn't broken."""
        self.browser.open(self.path, A4_WIDTH)
        self.browser.send("Emulation.setEmulatedMedia", media="print")
        height = self.browser.ask("document.documentElement.scrollHeight")
        self.browser.send("Emulation.setEmulatedMedia", media="")
        least = -(-height // A4_HEIGHT)
        pages = len(re.findall(rb"/Type\s*/Page\b(?!s)", self.browser.pdf()))
        self.assertGreater(least, 2)
        self.assertIn(pages, range(least, least + 3))


if __name__ == "__main__":
    unittest.main()
