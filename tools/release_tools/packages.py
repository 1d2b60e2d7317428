"""The packages themselves. The same files give the same bytes."""

import hashlib
import io
import os
import subprocess
import tarfile
import zlib
from pathlib import Path

GZIP = 16 + zlib.MAX_WBITS
SUMMARY = "spreadsheet for what-if questions, driven by text commands"
DESCRIPTION = """ whatif reads commands on standard input and writes CSV: what would the bill
 be at another price, the profit at other sales? It asks a model once, for a
 table of thousands of cases, or for named scenarios side by side. Numbers are
 exact fractions, and what is shown is proved to be what the formulas give."""
CONTROL = """Package: whatif
Version: {version}
Architecture: amd64
Maintainer: {maintainer}
Installed-Size: {size}
Depends: libc6 (>= {glibc})
Recommends: python3 (>= 3.10)
Section: math
Priority: optional
Description: {summary}
{description}
"""

BEFORE_REMOVAL = """#!/bin/sh
# Removes what Python keeps of the modules where root has run a tool.
set -e
find "${DPKG_ROOT:-}/usr/share/whatif" "${DPKG_ROOT:-}/usr/lib/python3/dist-packages/whatif" -name __pycache__ -prune -exec rm -r {} +
"""


def compressed(data: bytes) -> bytes:
    """The bytes by gzip, with no time and no name in them."""
    by = zlib.compressobj(9, zlib.DEFLATED, GZIP)
    return by.compress(data) + by.flush()


def sum_of(file: Path) -> str:
    return hashlib.sha256(file.read_bytes()).hexdigest()


def pack(root: Path, to: Path, top: str, moment: int) -> None:
    """A .tar.gz of what lies below a folder, in a folder of this name."""

    def plain(entry: tarfile.TarInfo) -> tarfile.TarInfo:
        entry.uid = entry.gid = 0
        entry.uname = entry.gname = "root"
        entry.mtime = moment
        return entry

    whole = io.BytesIO()
    with tarfile.open(fileobj=whole, mode="w", format=tarfile.PAX_FORMAT) as archive:
        for it in [root, *sorted(root.rglob("*"))]:
            archive.add(it, os.path.normpath(f"{top}/{it.relative_to(root)}"), recursive=False, filter=plain)
    to.write_bytes(compressed(whole.getvalue()))


def pack_debian(root: Path, to: Path, version: str, maintainer: str, glibc: str, moment: int) -> None:
    """A .deb of a folder that has the folder usr."""
    control = root / "DEBIAN"
    size = sum(it.lstat().st_size for it in root.rglob("*") if not it.is_dir()) // 1024
    control.mkdir(mode=0o755)
    text = CONTROL.format(version=version, maintainer=maintainer, size=size, glibc=glibc, summary=SUMMARY, description=DESCRIPTION)
    (control / "control").write_text(text)
    (control / "prerm").write_text(BEFORE_REMOVAL)
    for it, mode in ((control / "control", 0o644), (control / "prerm", 0o755), (control, 0o755), (root, 0o755)):
        it.chmod(mode)
        os.utime(it, (moment, moment))
    environment = {**os.environ, "SOURCE_DATE_EPOCH": str(moment)}
    subprocess.run(["dpkg-deb", "--root-owner-group", "-Zxz", "--build", str(root), str(to)], env=environment, check=True, stdout=subprocess.DEVNULL)


def write_sums(files: list[Path], to: Path) -> None:
    to.write_text("".join(f"{sum_of(it)}  {it.name}\n" for it in files))
