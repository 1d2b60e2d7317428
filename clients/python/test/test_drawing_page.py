"""Whole pages and parts for notebooks: texts stay texts, what is written can be read in light and dark, and nothing is fetched."""

from __future__ import annotations

import doctest
import importlib
import pkgutil
import re
import unittest
from fractions import Fraction
from xml.etree import ElementTree

from drawings import Node, tree, words
from whatif import drawing
from whatif.drawing import (
    Bar,
    Label,
    Part,
    State,
    changes_html,
    comparison_html,
    escaped,
    fragment,
    report,
    scenarios_html,
    sheet_html,
    table_html,
    tornado_html,
)
from whatif.drawing.colours import DARK, LEVELS, LIGHT, NEEDED, Theme, contrast, step
from whatif.drawing.style import style


def load_tests(loader: unittest.TestLoader, tests: unittest.TestSuite, pattern: object) -> unittest.TestSuite:
    """The examples in the modules' own words are tests too."""
    for module in pkgutil.iter_modules(drawing.__path__, drawing.__name__ + "."):
        found = doctest.DocTestFinder(exclude_empty=True).find(importlib.import_module(module.name))
        tests.addTests(doctest.DocTestCase(known) for known in found if known.examples)
    return tests


NASTY = "<script>alert(1)</script>\"'&</td></svg>\u202e\x00"


class Texts(unittest.TestCase):
    def everything(self, text: str) -> list[str]:
        """Each drawing with a text at each place that takes one."""
        name, one = Label(text, text), Fraction(1)
        bars = [Bar(name, one, one, one, "0", "2"), Bar(name, one, one, one, text, text)]
        rows = [["", text, "1"], [text, text, "2"], ["3", "#N/A", text]]
        return [
            table_html(rows, name, name, name, now=[text, text], cells=[text, text], file_name=text),
            table_html([["1", "-5"], ["2", "5"], ["3", text]], name, name),
            table_html([[str(n), text] for n in range(50)], name, name),
            comparison_html([[text, text, text, text]], text, text, labels={text: text}),
            scenarios_html([State(text, {text: text}, text), State("b", {text: "5"}, text)], [text], labels={text: text}),
            tornado_html(name, one, bars, one, remarks=[text]),
            sheet_html([[text]], "A1", formulas={"A1": text}, caption=text),
            changes_html([[text, text, text]], labels={text: text}),
        ]

    def elements(self, markup: str) -> list[str]:
        return [node.tag for node in tree(markup).iter()]

    def test_texts_are_texts(self) -> None:
        """A text that is markup makes no element and no attribute that a plain text doesn't make."""
        for nasty, plain in zip(self.everything(NASTY), self.everything("x")):
            self.assertEqual(self.elements(nasty), self.elements(plain))
            self.assertEqual(self.attributes(nasty), self.attributes(plain))
            self.assertNotIn("<script", nasty)
            self.assertNotIn("\x00", nasty)
            self.assertNotIn("\u202e", nasty)

    def attributes(self, markup: str) -> list[list[str]]:
        return [sorted(set(node.keys()) - {"title", "data-of"}) for node in tree(markup).iter()]

    def test_escaped(self) -> None:
        self.assertEqual(escaped("a<b>\"'&"), "a&lt;b&gt;&quot;&#x27;&amp;")


def body(page: str) -> Node:
    """The page's body, but its script."""
    found = re.search("<body.*</body>", re.sub("<script>.*</script>", "", page, flags=re.DOTALL), re.DOTALL)
    assert found is not None
    return ElementTree.fromstring(found[0])


class Pages(unittest.TestCase):
    PARTS = [
        Part("The bill", table_html([["1", "-1"], ["2", "3"]], "B4", Label("B1", "a & b")), "line 3"),
        Part("Many", comparison_html([[f"A{n}", "1", "2", "1"] for n in range(1, 50)], "a", "b")),
        Part(NASTY, comparison_html([]), NASTY, "findings", NASTY),
    ]

    def test_page(self) -> None:
        page = report(NASTY, self.PARTS, about=NASTY, sources=[(NASTY, NASTY)])
        found = body(page)
        self.assertEqual([words(head) for head in found.iter("h1")], [NASTY.replace("\u202e", "\ufffd").replace("\x00", "\ufffd")])
        self.assertEqual(page.count("<script"), 1)
        self.assertTrue(page.startswith('<!doctype html>\n<html lang="en"><head><meta charset="utf-8">'))
        self.assertEqual(page, report(NASTY, self.PARTS, about=NASTY, sources=[(NASTY, NASTY)]))

    def test_bodies_that_are_no_markup(self) -> None:
        """A text is a text also where a drawing is expected."""
        self.assertIn("&lt;script&gt;", fragment("<script>"))
        self.assertEqual(report("x", [Part("x", "<script>")]).count("<script"), 1)

    def test_nothing_is_fetched(self) -> None:
        page = re.sub("'sha256-[^']*'", "", report("A tariff", self.PARTS)) + style()
        self.assertIsNone(re.search(r"(?:src|href)=.(?!#|data:)|url\(|@import|https?:|//[a-z]", page))
        self.assertIn("default-src 'none'", page)

    def test_tables_have_captions_and_heads(self) -> None:
        found = body(report("A tariff", self.PARTS))
        for box in found.iter("div"):
            if box.get("role") == "region":
                self.assertEqual(box.get("aria-label"), words(next(box.iter("caption"))))
        for table in found.iter("table"):
            self.assertTrue(words(next(table.iter("caption"))))
            heads = list(table.iter("th"))
            self.assertTrue(heads)
            self.assertTrue(all(head.get("scope") in ("row", "col", "colgroup") for head in heads))
        for svg in found.iter("svg"):
            self.assertTrue(svg.get("aria-hidden") or (svg.get("role") == "img" and svg[0].tag == "title"))

    def test_fragment(self) -> None:
        """A part brings its style, which holds inside of it alone."""
        self.assertTrue(fragment(table_html([["1", "2"]], "B4", "B1")).startswith('<div class="whatif"'))
        for selectors in re.findall(r"([^{}]+)\{", style()):
            for selector in [] if selectors.startswith("@media") else selectors.split(","):
                self.assertRegex(selector.strip(), r"^(?:body)?\.whatif\b")


class Colours(unittest.TestCase):
    def test_contrast(self) -> None:
        """Every text can be read on what is behind it: 4.5 to 1 at least, in light and dark."""
        for theme in (LIGHT, DARK):
            for ground in (theme.paper, theme.card, theme.warning, theme.good):
                for name in ("ink", "soft", "link", "error", "below", "above"):
                    self.assertGreaterEqual(contrast(getattr(theme, name), ground), NEEDED, (name, ground))
            for line in theme.lines:
                self.assertGreaterEqual(contrast(line, theme.card), NEEDED, line)
            for is_above in (True, False):
                for level in range(1, LEVELS + 1):
                    ground, ink = step(theme, is_above, level)
                    self.assertGreaterEqual(contrast(ground, ink), NEEDED, (is_above, level))

    def test_steps_differ(self) -> None:
        """Further steps are further from the paper; those above and below differ in more than red and green."""
        for theme in (LIGHT, DARK):
            for is_above in (True, False):
                far = [contrast(step(theme, is_above, level)[0], theme.card) for level in range(1, LEVELS + 1)]
                self.assertEqual(far, sorted(far))
            self.assertGreater(abs(blue(theme, True) - blue(theme, False)), 100)

    def test_contrast_itself(self) -> None:
        """As WCAG 2 tells it: 21 for black and white, 1 for a colour and itself, 4.48 for #777777 on white."""
        self.assertAlmostEqual(contrast("#000000", "#ffffff"), 21)
        self.assertAlmostEqual(contrast("#123456", "#123456"), 1)
        self.assertAlmostEqual(contrast("#777777", "#ffffff"), 4.48, places=2)


def blue(theme: Theme, is_above: bool) -> int:
    return int(step(theme, is_above, LEVELS)[0][5:7], 16)


if __name__ == "__main__":
    unittest.main()
