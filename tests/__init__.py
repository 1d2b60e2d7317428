"""The tests, as packages from the top folder on, which a program of theirs puts on the path. The tools and the client are found beside them."""

import sys
from pathlib import Path

ROOT = Path(__file__).resolve().parents[1]

sys.dont_write_bytecode = True
sys.path[1:1] = [str(ROOT / "tools"), str(ROOT / "clients" / "python")]
