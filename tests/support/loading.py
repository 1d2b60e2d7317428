"""Programs whose names don't end in .py, as modules."""

import io
import sys
from contextlib import redirect_stdout
from importlib.machinery import SourceFileLoader
from importlib.util import module_from_spec, spec_from_loader
from pathlib import Path
from types import ModuleType


def loaded(path: Path) -> ModuleType:
    """A program as a module. Dataclasses look for theirs by its name."""
    name = f"program_{path.name}"
    loader = SourceFileLoader(name, str(path))
    spec = spec_from_loader(name, loader)
    assert spec
    module = module_from_spec(spec)
    sys.modules[name] = module
    loader.exec_module(module)
    return module


def result_of(tool: ModuleType, *words: str) -> tuple[int, str]:
    """The status of a tool that was loaded, given these words, and what it says."""
    out = io.StringIO()
    with redirect_stdout(out):
        status = tool.main(list(words))
    return status, out.getvalue()
