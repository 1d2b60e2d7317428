#!/usr/bin/env python3
"""Builds the client's wheel by the standard library alone, so that `pip install` needs no network.

    clients/python/build_backend/plain_wheel.py FOLDER      writes the wheel into a folder, the same bytes each time

PEP 517 has the names of the functions that pip calls. The wheel has the package whatif, and the tools' modules, which have the hints.
"""

from __future__ import annotations

import base64
import hashlib
import re
import sys
import zipfile
from pathlib import Path
from typing import Any, Optional

CLIENT = Path(__file__).resolve().parents[1]
ROOT = CLIENT.parents[1]
WHEEL = "Wheel-Version: 1.0\nGenerator: whatif\nRoot-Is-Purelib: true\nTag: py3-none-any\n"
FIRST_DAY = (1980, 1, 1, 0, 0, 0)


def build_wheel(wheel_directory: str, config_settings: Any = None, metadata_directory: Optional[str] = None) -> str:
    """Writes the wheel; its name."""
    return written(Path(wheel_directory), modules())


def build_editable(wheel_directory: str, config_settings: Any = None, metadata_directory: Optional[str] = None) -> str:
    """Writes a wheel that only says where the modules are; its name."""
    return written(Path(wheel_directory), {"whatif_client.pth": f"{CLIENT}\n{ROOT / 'tools'}\n".encode()})


def modules() -> dict[str, bytes]:
    """The files of the packages, by their places in the wheel."""
    found = {}
    for folder in (CLIENT / "whatif", ROOT / "tools" / "whatif_tools"):
        for path in [*folder.rglob("*.py"), *folder.rglob("py.typed")]:
            found[path.relative_to(folder.parent).as_posix()] = path.read_bytes()
    return found


def metadata(project: str) -> str:
    """What pip shows of the package."""
    said = dict(re.findall(r'^(name|version|description|requires-python) = "(.*)"$', project, re.MULTILINE))
    head = {"Metadata-Version": "2.1", "Name": said["name"], "Version": said["version"], "Summary": said["description"]}
    more = {"Requires-Python": said["requires-python"], "Provides-Extra": "pandas", "Requires-Dist": 'pandas; extra == "pandas"'}
    lines = "".join(f"{name}: {value}\n" for name, value in {**head, **more}.items())
    return f"{lines}Description-Content-Type: text/markdown\n\n{(CLIENT / 'README.md').read_text()}"


def written(folder: Path, files: dict[str, bytes]) -> str:
    """Writes a wheel with these files, and what belongs to each wheel; its name."""
    project = (CLIENT / "pyproject.toml").read_text()
    version = re.search(r'^version = "(.*)"$', project, re.MULTILINE)
    assert version
    name = f"whatif_client-{version[1]}"
    scripts = "".join(re.findall(r'^([\w-]+ = )"([\w.]+:\w+)"$', project, re.MULTILINE)[0])
    info = {"METADATA": metadata(project), "WHEEL": WHEEL, "entry_points.txt": f"[console_scripts]\n{scripts}\n"}
    files = {**files, **{f"{name}.dist-info/{it}": text.encode() for it, text in info.items()}}
    record = "".join(f"{it},sha256={digest(content)},{len(content)}\n" for it, content in sorted(files.items()))
    files[f"{name}.dist-info/RECORD"] = f"{record}{name}.dist-info/RECORD,,\n".encode()
    wheel = f"{name}-py3-none-any.whl"
    with zipfile.ZipFile(folder / wheel, "w", zipfile.ZIP_DEFLATED) as archive:
        for it, content in files.items():
            archive.writestr(zipfile.ZipInfo(it, FIRST_DAY), content, zipfile.ZIP_DEFLATED)
    return wheel


def digest(content: bytes) -> str:
    return base64.urlsafe_b64encode(hashlib.sha256(content).digest()).rstrip(b"=").decode()


if __name__ == "__main__":
    print(build_wheel(sys.argv[1]))
