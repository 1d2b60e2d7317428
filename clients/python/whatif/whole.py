"""Files that are there when they are whole, and not before."""

from __future__ import annotations

import os
import tempfile
from collections.abc import Iterator
from contextlib import contextmanager
from pathlib import Path
from typing import IO


@contextmanager
def replacing(path: Path, durable: bool = True) -> Iterator[IO[bytes]]:
    """A file that is there when it is whole, and not before; if it is durable, also when the power fails."""
    path = path.resolve()
    file = tempfile.NamedTemporaryFile(dir=path.parent, prefix=f".{path.name}.", delete=False)
    try:
        with file:
            yield file
            file.flush()
            if durable:
                os.fsync(file.fileno())
        os.chmod(file.name, 0o666 & ~mask())
        os.replace(file.name, path)
    except BaseException:
        Path(file.name).unlink(missing_ok=True)
        raise


def mask() -> int:
    found = os.umask(0)
    os.umask(found)
    return found


def write_whole(path: Path, content: bytes, durable: bool = True) -> None:
    with replacing(path, durable) as file:
        file.write(content)
