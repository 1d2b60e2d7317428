"""Opening a spreadsheet's file: its kind, and the bytes of its XML; an Excel workbook goes through LibreOffice first."""

import os
import shutil
import signal
import subprocess
import tempfile
import zipfile
import zlib
from collections.abc import Iterator
from pathlib import Path
from typing import IO

CONTENT = "content.xml"
MOST_BYTES = 200_000_000
"""So much XML is read: that of a million cells."""

CHUNK = 1 << 16
CONVERTER = "soffice"
SECONDS = 300
ZIP, OLE = b"PK\x03\x04", b"\xd0\xcf\x11\xe0"
BROKEN = (zipfile.BadZipFile, zlib.error, EOFError, KeyError, NotImplementedError, RuntimeError, ValueError, OSError)
"""What a broken archive may raise."""


class NotASpreadsheet(Exception):
    """The file can't be read as a spreadsheet, or has too much in it."""


def chunks(path: Path) -> Iterator[bytes]:
    """The XML that has the cells of a spreadsheet file, whichever kind it is."""
    if not path.is_file():
        raise NotASpreadsheet(f"{path} is no file" if path.exists() else f"{path} isn't there")
    with path.open("rb") as file:
        start = file.read(4)
    if start == OLE:
        yield from converted(path)
    elif start != ZIP:
        yield from limited(flat(path), path)
    elif CONTENT in members(path):
        yield from limited(archived(path), path)
    elif any(name.startswith("xl/") for name in members(path)):
        yield from converted(path)
    else:
        raise NotASpreadsheet(f"{path} is no spreadsheet: .ods, .fods, .xlsx and .xls are read")


def members(path: Path) -> list[str]:
    try:
        with zipfile.ZipFile(path) as archive:
            return archive.namelist()
    except BROKEN as error:
        raise NotASpreadsheet(f"{path} is a broken archive: {error}") from error


def archived(path: Path) -> Iterator[bytes]:
    try:
        with zipfile.ZipFile(path) as archive:
            if is_encrypted(archive):
                raise NotASpreadsheet(f"{path} has a password: save it without one")
            with archive.open(CONTENT) as file:
                yield from parts(file)
    except BROKEN as error:
        raise NotASpreadsheet(f"{path} is a broken archive: {error}") from error


def is_encrypted(archive: zipfile.ZipFile) -> bool:
    manifest = "META-INF/manifest.xml"
    if manifest not in archive.namelist():
        return False
    with archive.open(manifest) as file:
        return b"encryption-data" in file.read(CHUNK * 16)


def flat(path: Path) -> Iterator[bytes]:
    with path.open("rb") as file:
        first = file.read(CHUNK)
        if not first.lstrip(b"\xef\xbb\xbf\xff\xfe \t\r\n\0").startswith(b"<"):
            raise NotASpreadsheet(f"{path} is no spreadsheet: .ods, .fods, .xlsx and .xls are read")
        yield first
        yield from parts(file)


def parts(file: IO[bytes]) -> Iterator[bytes]:
    while part := file.read(CHUNK):
        yield part


def limited(read: Iterator[bytes], path: Path) -> Iterator[bytes]:
    size = 0
    for part in read:
        size += len(part)
        if size > MOST_BYTES:
            most = MOST_BYTES // 1_000_000
            raise NotASpreadsheet(f"{path} has more than {most} MB of XML: take the sheets that are needed into a file of their own")
        yield part


def run_alone(words: list[str]) -> None:
    """Runs a program that may start others, and ends all of them where it takes too long."""
    process = subprocess.Popen(
        words, stdin=subprocess.DEVNULL, stdout=subprocess.DEVNULL, stderr=subprocess.DEVNULL, start_new_session=True
    )
    try:
        process.wait(SECONDS)
    except BaseException:
        os.killpg(process.pid, signal.SIGKILL)
        process.wait()
        raise


def converted(path: Path) -> Iterator[bytes]:
    """The XML of an Excel workbook that LibreOffice has converted."""
    program = shutil.which(CONVERTER)
    if program is None:
        command = f"{CONVERTER} --headless --convert-to ods {path}"
        lacks = f"{CONVERTER} of LibreOffice, which converts it, isn't on the path"
        raise NotASpreadsheet(f"{path} is an Excel workbook, and {lacks}: install it, or run {command} elsewhere")
    with tempfile.TemporaryDirectory() as folder:
        profile = Path(folder, "profile").as_uri()
        words = [program, f"-env:UserInstallation={profile}", "--headless", "--convert-to", "ods", "--outdir", folder, str(path.resolve())]
        try:
            run_alone(words)
        except subprocess.TimeoutExpired as error:
            raise NotASpreadsheet(f"{path}: {CONVERTER} hasn't converted it in {SECONDS} seconds") from error
        except OSError as error:
            raise NotASpreadsheet(f"{program}: {error.strerror}") from error
        made = Path(folder, path.stem + ".ods")
        if not made.is_file():
            raise NotASpreadsheet(f"{path} is no workbook that {CONVERTER} can convert; has it a password?")
        yield from limited(archived(made), path)
