"""Whole pages, and parts for notebooks."""

from __future__ import annotations

import base64
import hashlib
from collections.abc import Iterable, Sequence
from dataclasses import dataclass

from .markup import NOTHING, Markup, joined, tag
from .style import PAPER, style

COPY = """
const exact = cell => cell.title.split(" ").pop() || cell.textContent.trim();
for (const table of navigator.clipboard ? document.querySelectorAll("table") : []) {
  const button = document.createElement("button");
  button.type = "button";
  button.textContent = "copy exact";
  button.addEventListener("click", async () => {
    const rows = [...table.rows].map(row => [...row.cells].filter(cell => !cell.classList.contains("bar")).map(exact).join("\\t"));
    await navigator.clipboard.writeText(rows.join("\\n"));
    button.textContent = "copied";
  });
  if (table.rows.length > 2) table.caption.append(button);
}
"""
"""A button in each table that copies what it shows, its numbers exactly: the last word of a title is the exact number."""


@dataclass(frozen=True)
class Part:
    """A part of a page: its heading, a line about it, and what it shows."""

    title: str
    body: str
    about: str = ""
    kind: str = ""
    """`findings` or `good` for parts that say whether all is well."""

    anchor: str = ""


def part_html(part: Part) -> Markup:
    head = tag("h2", part.title) if part.title else NOTHING
    about = tag("p", part.about, class_="meta") if part.about else NOTHING
    return tag("section", head, about, part.body, class_=part.kind or None, id=part.anchor or None)


def report(title: str, parts: Iterable[Part], *, about: str = "", sources: Sequence[tuple[str, str]] = ()) -> str:
    """A page of its own, with all that it needs in it. Bodies are what the functions `.._html` make; any other text is escaped, also as a body.

    Path("report.html").write_text(report("A tariff", [Part("The bill", table_html(..))]), encoding="utf-8")
    """
    foot = [joined([tag("dt", name), tag("dd", text)]) for name, text in sources]
    main = [tag("h1", title), tag("p", about, class_="meta") if about else NOTHING, *map(part_html, parts), tag("footer", tag("dl", *foot))]
    allowed = base64.b64encode(hashlib.sha256(COPY.encode()).digest()).decode()
    policy = f"default-src 'none'; style-src 'unsafe-inline'; script-src 'sha256-{allowed}'; img-src data:; base-uri 'none'; form-action 'none'"
    head = joined(
        [
            Markup('<meta charset="utf-8">'),
            tag("title", title),
            Markup('<meta name="viewport" content="width=device-width,initial-scale=1">'),
            Markup(f'<meta http-equiv="Content-Security-Policy" content="{policy}">'),
            tag("style", Markup(style() + PAPER)),
        ]
    )
    body = tag("body", tag("main", *main), tag("script", Markup(COPY)), class_="whatif")
    return f'<!doctype html>\n<html lang="en"><head>{head}</head>\n{body}</html>\n'


def fragment(body: str) -> Markup:
    """A part with its style, as `_repr_html_` gives it to a notebook."""
    return tag("div", tag("style", Markup(style())), body, class_="whatif", style="padding:8px 10px;max-width:1100px")
