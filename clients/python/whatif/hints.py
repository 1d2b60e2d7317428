"""What to write instead of a command that was refused. The tables are those of the tools, which an installed client has beside it."""

from __future__ import annotations

import importlib
import sys
from collections.abc import Collection
from pathlib import Path
from typing import Any, Optional

TOOLS = "whatif_tools"
CHECKOUT = Path(__file__).resolve().parent.parent.parent.parent / "tools"


def tool(name: str) -> Any:
    """A module of the tools: the installed one, or that of the repository."""
    if (CHECKOUT / TOOLS).is_dir() and str(CHECKOUT) not in sys.path:
        sys.path.append(str(CHECKOUT))
    return importlib.import_module(f"{TOOLS}.{name}")


def hint_for(code: str, line: str, scenarios: Collection[str]) -> Optional[str]:
    """What to write instead of a line that was refused so, if that is known; `scenarios` are those that were made."""
    try:
        hints, lines, formula, script = tool("hints"), tool("line_hints"), tool("formula"), tool("script")
    except (ImportError, TypeError):  # not installed, or a Python before 3.10
        return None
    command = script.Command(1, line.encode(errors="replace"), ())
    if code == "E05" and command.content is not None and formula.is_formula(command.content):
        found = formula.fault(command.content)
        hint = found and hints.formula_hint(command.content, found.place)
    elif code == "E02":
        hint = lines.line_hint(command, {})
    elif code == "E10":
        unknown = next((word for word in command.words[1:] if word.isidentifier() and word not in scenarios), "")
        hint = lines.name_hint(unknown, scenarios)
    else:
        hint = lines.BY_CODE.get(code)
    return str(hint) if hint else None
