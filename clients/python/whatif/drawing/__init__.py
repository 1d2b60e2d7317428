"""Draws answers of whatif as HTML: tables with heat maps and curves, comparisons, scenarios side by side, tornados, parts of the sheet.

Each function takes what a command has answered, as texts or as the client's values, and gives markup in which every text is escaped.
`fragment` makes of it what a notebook shows, and `report` a page of its own. Only the standard library is needed.

    >>> page = report("A tariff", [Part("The bill", table_html([["250", "92"], ["400", "140"]], Label("B4", "bill"), Label("B1", "kWh")))])
    >>> page.count("<svg"), "All answers are alike" in page
    (1, False)
"""

from .comparisons import State, changes_html, comparison_html, scenarios_html
from .grids import records_html, sheet_html
from .label import Label
from .markup import Markup, escaped, joined, tag
from .names import Names
from .page import Part, fragment, report
from .tables import table_html
from .tornado import Bar, tornado_html

__all__ = [
    "Bar",
    "Label",
    "Markup",
    "Names",
    "Part",
    "State",
    "changes_html",
    "comparison_html",
    "escaped",
    "fragment",
    "joined",
    "records_html",
    "report",
    "scenarios_html",
    "sheet_html",
    "table_html",
    "tag",
    "tornado_html",
]
