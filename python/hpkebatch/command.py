"""Runs the command `hpkebatch`: finds it, gives it a text, and makes exceptions of its statuses."""

from __future__ import annotations

import os
import shutil
import subprocess
import sys
from contextlib import contextmanager
from dataclasses import dataclass
from io import BufferedRandom
from mmap import ACCESS_READ, mmap
from typing import Callable, Dict, Iterable, Iterator, NamedTuple, Optional, Protocol, Sequence, Tuple, Type, Union, cast

from .errors import (
    BadBatch,
    BuildFailed,
    CommandNotFound,
    IllegalReply,
    OutOfMemory,
    ReadFault,
    RunFailed,
    UsageError,
    WriteFault,
)

Path = Union[str, "os.PathLike[str]"]


Text = Union[bytes, mmap]


class Finished(NamedTuple):
    """What a run left."""

    status: int
    output: Text
    errors: bytes


class Runner(Protocol):
    """Whatever answers a text as the command does: words and standard input, in pieces, in; status and texts out."""

    def __call__(self, words: Sequence[str], pieces: Iterable[Text]) -> Finished: ...


HERE = os.path.dirname(os.path.abspath(__file__))
REPOSITORY = os.path.dirname(os.path.dirname(HERE))
NAME = "hpkebatch"


def launcher() -> Optional[str]:
    """The repository's launcher, where this package stands in a clone."""
    path = os.path.join(REPOSITORY, NAME)
    is_clone = os.path.isfile(os.path.join(REPOSITORY, "tools", "build"))
    return path if is_clone and os.access(path, os.X_OK) else None


def packed() -> Optional[str]:
    """The program that a wheel has beside this package's modules."""
    path = os.path.join(HERE, "program", NAME)
    return path if os.access(path, os.X_OK) else None


def on_path() -> Optional[str]:
    """The command of the PATH, but for the script that runs this package under the same name."""
    for folder in os.get_exec_path():
        found = shutil.which(NAME, path=folder)
        if found is not None and not _is_own(found):
            return found
    return None


def _is_own(path: str) -> bool:
    return bool(sys.argv[0]) and os.path.exists(sys.argv[0]) and os.path.samefile(path, sys.argv[0])


def find_command(path: Optional[Path] = None) -> str:
    """The command: `path`, else that of HPKEBATCH, else the wheel's, else `hpkebatch` of the PATH, else the
    repository's launcher."""
    if path is not None:
        return os.fspath(path)
    found = os.environ.get("HPKEBATCH") or packed() or on_path() or launcher()
    if found is None:
        raise CommandNotFound(
            "the program hpkebatch isn't on the PATH; install its package, or name the program in HPKEBATCH"
        )
    return found


@dataclass(frozen=True)
class Command:
    """Runs the command. Where no path is given it is looked for at each run, on the machine that runs it."""

    path: Optional[Path] = None

    def __call__(self, words: Sequence[str], pieces: Iterable[Text]) -> Finished:
        path = find_command(self.path)
        # A launcher may build for minutes, and tells of it on standard error.
        errors = None if path == launcher() else subprocess.PIPE
        run = _run_in_memory if hasattr(os, "memfd_create") else _run_by_pipes
        return run([path, *words], pieces, errors)


@contextmanager
def _starting(path: str) -> Iterator[None]:
    """A fault before the command ran: nothing was written."""
    try:
        yield
    except OSError as fault:
        raise CommandNotFound(f"{path} can't be run: {fault.strerror}") from fault


def _run_by_pipes(words: Sequence[str], pieces: Iterable[Text], errors: Optional[int]) -> Finished:
    with _starting(words[0]):
        done = subprocess.run(words, input=b"".join(pieces), stdout=subprocess.PIPE, stderr=errors, check=False)
    return Finished(done.returncode, done.stdout, done.stderr or b"")


def _run_in_memory(words: Sequence[str], pieces: Iterable[Text], errors: Optional[int]) -> Finished:
    """By files that stand in memory alone: faster than pipes for large texts, and no secret gets to a disk."""
    with _starting(words[0]):
        source, sink = _memory_file(), _memory_file()
    with source, sink:
        with _starting(words[0]):
            source.writelines(pieces)
            source.seek(0)
            done = subprocess.run(words, stdin=source, stdout=sink, stderr=errors, check=False)
        return Finished(done.returncode, _mapped(sink, done.returncode), done.stderr or b"")


def _mapped(file: BufferedRandom, status: int) -> Text:
    if os.fstat(file.fileno()).st_size == 0:
        return b""
    try:
        return mmap(file.fileno(), 0, access=ACCESS_READ)
    except OSError as fault:
        raise RunFailed(status, f"its reply can't be read: {fault.strerror}") from fault


def _memory_file() -> BufferedRandom:
    return cast(BufferedRandom, os.fdopen(os.memfd_create("hpkebatch"), "w+b", buffering=1 << 16))


FAULTS: Dict[int, Type[RunFailed]] = {2: UsageError, 4: ReadFault, 5: WriteFault, 6: OutOfMemory, 125: BuildFailed}
AskedAt = Callable[[int], Optional[object]]


def output_of(
    runner: Optional[Runner], words: Sequence[str], pieces: Iterable[Text], asked_at: Optional[AskedAt] = None
) -> Text:
    """The output of a run with status 0; any other status is raised. `asked_at` tells what a line was made for."""
    done = (runner or Command())(words, pieces)
    if done.status == 0:
        return done.output
    raise _fault(done, asked_at or (lambda line: None))


def _fault(done: Finished, asked_at: AskedAt) -> RunFailed:
    said = bytes(done.output if done.status in (3, 7) else done.errors).decode("utf-8", "replace").strip()
    pieces = said.split(" ")
    if done.status == 3 and len(pieces) == 3 and pieces[1].isdigit():
        line = int(pieces[1])
        return BadBatch(line, pieces[2], asked_at(line))
    if done.status == 7 and len(pieces) in (2, 3):
        return IllegalReply(*_broken(pieces))
    return FAULTS.get(done.status, RunFailed)(done.status, said)


def _broken(pieces: Sequence[str]) -> Tuple[str, Union[int, str, None]]:
    at = pieces[2] if len(pieces) == 3 else None
    return pieces[1], int(at) if at and at.isdigit() else at
