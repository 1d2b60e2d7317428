"""What a program says of itself in its file, which is in the form ELF, of 64 bits."""

import re
import struct
from pathlib import Path
from typing import Optional

PROVED = re.compile(r"rattle logic=([0-9a-f]+)")
MAGIC = b"\x7fELF\x02"


def section(program: bytes, wanted: bytes) -> bytes:
    """The bytes of a section, none where there is no such one. The file's head says where the table of sections begins, how long a line of it is,
    how many it has, and which of them is that of the names."""
    if not program.startswith(MAGIC):
        return b""
    (begin,) = struct.unpack_from("<Q", program, 40)
    size, number, names = struct.unpack_from("<3H", program, 58)
    lines = [struct.unpack_from("<II4Q", program, begin + size * at) for at in range(number)]
    texts = bytes_of(program, lines[names])
    return next((bytes_of(program, it) for it in lines if texts[it[0]:].partition(b"\0")[0] == wanted), b"")


def bytes_of(program: bytes, line: tuple[int, ...]) -> bytes:
    return program[line[4]:line[4] + line[5]]


def comment(file: Path) -> list[str]:
    """What its section .comment says, part by part."""
    return [it.decode(errors="replace") for it in section(file.read_bytes(), b".comment").split(b"\0") if it]


def logic(file: Path) -> Optional[str]:
    """The logic in which the program is proved, if it names one."""
    return next((found[1] for it in comment(file) if (found := PROVED.match(it))), None)


def glibc(file: Path) -> str:
    """The newest version of the C library that the program asks for, or none."""
    versions = re.findall(rb"GLIBC_([0-9]+)\.([0-9]+)", section(file.read_bytes(), b".dynstr"))
    return "{}.{}".format(*max((int(major), int(minor)) for major, minor in versions)) if versions else ""
