"""Where the client for Python is, whose package draws and sweeps: in the repository, or where both are unpacked."""

import sys

from .program import ROOT

CHECKOUT = ROOT / "clients" / "python"
INSTALLED = ROOT.parent / "lib" / "python3" / "dist-packages"


def find_client() -> None:
    """Puts the client on the path: that of the repository before any other, an installed one behind all."""
    if CHECKOUT.is_dir():
        sys.path.insert(1, str(CHECKOUT))
    sys.path.append(str(INSTALLED))
