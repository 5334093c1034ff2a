"""What is read: files, and pipes of unknown size, which are kept until they end."""

from __future__ import annotations

import os
import stat
import tempfile
from contextlib import contextmanager
from typing import IO, Iterator, Tuple

from .errors import FileFault

STANDARD = "-"  # the name of standard input and output
# So much of a pipe is kept in memory, and of what is opened to standard output; beyond it in a file with no name.
MOST_IN_MEMORY = 33_554_432
PIECE = 1 << 20


class Source:
    """Bytes whose size is known. `name` stands for them in faults."""

    def __init__(self, file: IO[bytes], name: str, size: int, mode: int = 0o666) -> None:
        self.file, self.name, self.size, self.mode = file, name, size, mode
        self._start = file.tell()

    def read(self, size: int) -> bytes:
        """So many bytes, or fewer at the end."""
        with naming(self.name):
            return self.file.read(size)

    def rewind(self) -> None:
        self.file.seek(self._start)

    def close(self) -> None:
        self.file.close()


def name_of(path: str) -> str:
    """What a file is called in faults."""
    return "standard input" if path == STANDARD else path


def opened(path: str) -> Source:
    """A file, or standard input. A pipe is read to its end first."""
    name = name_of(path)
    with naming(name):
        file: IO[bytes] = open(0, "rb", closefd=False) if path == STANDARD else open(path, "rb")
        try:
            found = os.fstat(file.fileno())
            if stat.S_ISREG(found.st_mode):
                return Source(file, name, max(0, found.st_size - file.tell()), found.st_mode & 0o777)
            kept, size = _kept(file)
        except BaseException:
            file.close()
            raise
        file.close()
        return Source(kept, name, size)


def _kept(pipe: IO[bytes]) -> Tuple[IO[bytes], int]:
    kept: IO[bytes] = tempfile.SpooledTemporaryFile(max_size=MOST_IN_MEMORY)
    try:
        for piece in iter(lambda: pipe.read(PIECE), b""):
            kept.write(piece)
        size = kept.tell()
        kept.seek(0)
    except BaseException:
        kept.close()
        raise
    return kept, size


@contextmanager
def naming(name: str) -> Iterator[None]:
    """Gives a fault of the system the name of what it is about."""
    try:
        yield
    except OSError as fault:
        raise FileFault(name, fault.strerror or str(fault)) from fault
