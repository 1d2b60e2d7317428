#!/usr/bin/env python3
"""Writes a program for x86-64 Linux that runs a text by bash, and whose section .comment has a note: it stands in the place of a built whatif.

    tests/stub_elf.py FILE NOTE TEXT
"""

import struct
import sys
from pathlib import Path

BASE = 0x400000
HEAD, SEGMENT, SECTION = 64, 56, 64
LOADED, RUNNABLE_AND_READABLE = 1, 5
OF_PROGRAM, OF_STRINGS = 1, 3
NAMES = b"\0.comment\0.shstrtab\0"


def code(shell: int, flag: int, text: int) -> bytes:
    """Has the shell run the text, with the program's own words behind it. At first the stack has their number and then they, and the environment."""
    return b"".join((
        b"\x48\x8b\x04\x24",  # mov rax, [rsp]
        b"\x48\x8d\x54\xc4\x10",  # lea rdx, [rsp + rax * 8 + 16]
        b"\x48\xb9" + struct.pack("<Q", text),  # mov rcx, text
        b"\x48\x89\x0c\x24",  # mov [rsp], rcx
        b"\x48\xb9" + struct.pack("<Q", flag),  # mov rcx, flag
        b"\x51",  # push rcx
        b"\x48\xbf" + struct.pack("<Q", shell),  # mov rdi, shell
        b"\x57",  # push rdi
        b"\x48\x89\xe6",  # mov rsi, rsp
        b"\xb8\x3b\x00\x00\x00\x0f\x05",  # mov eax, execve; syscall
    ))  # fmt: skip


def program(note: bytes, text: str) -> bytes:
    """The file. Its parts stand behind one another, and the table of sections is the last."""
    strings = [b"/bin/bash\0", b"-c\0", text.encode() + b"\0"]
    at = BASE + HEAD + SEGMENT + len(code(0, 0, 0))
    places = [at, at + len(strings[0]), at + len(strings[0]) + len(strings[1])]
    body = code(*places) + b"".join(strings)
    notes = b"\0" + note + b"\0"
    comment = HEAD + SEGMENT + len(body)
    names = comment + len(notes)
    size = names + len(NAMES)
    sections = [
        bytes(SECTION),
        struct.pack("<IIQQQQIIQQ", NAMES.index(b".comment"), OF_PROGRAM, 0, 0, comment, len(notes), 0, 0, 1, 0),
        struct.pack("<IIQQQQIIQQ", NAMES.index(b".shstrtab"), OF_STRINGS, 0, 0, names, len(NAMES), 0, 0, 1, 0),
    ]
    begin = BASE + HEAD + SEGMENT
    head = b"\x7fELF\x02\x01\x01" + bytes(9) + struct.pack("<HHIQQQIHHHHHH", 2, 62, 1, begin, HEAD, size, 0, HEAD, SEGMENT, 1, SECTION, 3, 2)
    segment = struct.pack("<IIQQQQQQ", LOADED, RUNNABLE_AND_READABLE, 0, BASE, BASE, size, size, 0x1000)
    return head + segment + body + notes + NAMES + b"".join(sections)


def write(file: Path, note: bytes, text: str) -> None:
    file.write_bytes(program(note, text))
    file.chmod(0o755)


if __name__ == "__main__":
    write(Path(sys.argv[1]), sys.argv[2].encode(), sys.argv[3])
