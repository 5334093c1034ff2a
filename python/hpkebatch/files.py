"""Sealed files (docs/FORMAT.md, "Key files and sealed files"): sealed and opened part by part, many in one batch.

A file is cut into chunks of 1 MiB, the last one shorter, and each four of them are a part; an empty file is one part
with no chunk. Behind its head a sealed file has of each part its chunks, sealed, and the 16 bytes of its end mark.
"""

from __future__ import annotations

import hashlib
import os
import secrets
from contextlib import contextmanager
from dataclasses import dataclass, replace
from itertools import islice
from typing import Callable, Iterable, Iterator, List, NamedTuple, Optional, Protocol, Sequence, Union

from . import arguments
from .command import Runner
from .errors import FileFault, RunFailed, WrongKey
from .keys import HASH_SIZE, PublicKey, SecretKey
from .new_file import IS_THERE, NewFile, write_all
from .parts import OpenedPart, PartTask, Root, RootAsked, grouped, measured
from .sealed import Head, Reader, Suite, recipient_of
from .sources import MOST_IN_MEMORY, STANDARD, Source, name_of, naming, opened
from .suites import ID_SIZE, TAG_SIZE, Aead, Kdf, Limits, Psk
from .ways import open_parts, recipient_roots, seal_parts, sender_roots

MAGIC = b"hpkebatch sealed 2\n"
OLD_MAGIC = b"hpkebatch sealed 1\n"
SUFFIX = ".hpke"
SIZE_SIZE = 8
HEAD_SIZE = len(MAGIC) + 6 + HASH_SIZE + ID_SIZE + SIZE_SIZE  # without the encapsulation
CHUNK = 1_048_576
CHUNKS_OF_PART = 4
FILES_AT_ONCE = 64
# What is sealed or opened in one run: four parts, a lane and a worker for each.
OF_ONE_RUN = Limits(input=37_748_736)


# ---- the form


@dataclass(frozen=True)
class Layout:
    """How a file of this size is cut."""

    size: int

    @property
    def chunks(self) -> int:
        return -(-self.size // CHUNK)

    @property
    def parts(self) -> int:
        return max(1, -(-self.chunks // CHUNKS_OF_PART))

    def sizes(self, part: int) -> List[int]:
        """How many bytes each chunk of a part has."""
        first = part * CHUNKS_OF_PART
        end = min(first + CHUNKS_OF_PART, self.chunks)
        return [min(CHUNK, self.size - at * CHUNK) for at in range(first, end)]

    def sealed_size(self, head: Head) -> int:
        """How long the sealed file is."""
        return HEAD_SIZE + len(head.enc) + self.size + (self.chunks + self.parts) * TAG_SIZE


def layout_of(head: Head) -> Layout:
    return Layout(int.from_bytes(head.counts, "big"))


def read_head(source: Source) -> Head:
    """The head of a sealed file."""
    data = source.read(HEAD_SIZE)
    if data.startswith(OLD_MAGIC):
        raise FileFault(source.name, "it was sealed by hpkebatch 0.2.0, whose form isn't read any more")
    if not data.startswith(MAGIC):
        raise FileFault(source.name, "it isn't a sealed file of hpkebatch")
    try:
        reader = Reader(data)
        reader.take(len(MAGIC))
        suite = reader.suite()
        recipient, id, counts = reader.take(HASH_SIZE), reader.take(ID_SIZE), reader.take(SIZE_SIZE)
        enc = Reader(source.read(suite.kem.enc_size)).take(suite.kem.enc_size)
    except ValueError:
        raise FileFault(source.name, "its head is cut or spoilt, or of a newer version") from None
    return Head(MAGIC, suite, recipient, id, counts, enc)


# ---- where it is written


class Sink(Protocol):
    def write(self, pieces: Iterable[bytes]) -> None:
        """Takes what comes of a part."""

    def finish(self, mode: int) -> None:
        """Gives out what is whole."""

    def close(self) -> None:
        """Lets go of it, finished or not."""


class ToStandardOutput:
    def write(self, pieces: Iterable[bytes]) -> None:
        with naming("standard output"):
            for piece in pieces:
                write_all(1, piece)

    def finish(self, mode: int) -> None:
        pass

    def close(self) -> None:
        pass


class Held(ToStandardOutput):
    """Kept in memory until it is whole."""

    def __init__(self) -> None:
        self.pieces: List[bytes] = []

    def write(self, pieces: Iterable[bytes]) -> None:
        self.pieces += pieces

    def finish(self, mode: int) -> None:
        super().write(self.pieces)


class Checked(ToStandardOutput):
    """Written nowhere: the first time over a file that memory can't hold."""

    def __init__(self, digests: List[bytes]) -> None:
        self.digests = digests

    def write(self, pieces: Iterable[bytes]) -> None:
        self.digests.append(_digest(pieces))


class CheckedAgain(ToStandardOutput):
    """Written out: the second time, as long as it is what was checked."""

    def __init__(self, digests: List[bytes]) -> None:
        self.digests = iter(digests)

    def write(self, pieces: Iterable[bytes]) -> None:
        if next(self.digests) != _digest(pieces):
            raise FileFault("standard output", "the file changed while it was opened")
        super().write(pieces)


def _digest(pieces: Iterable[bytes]) -> bytes:
    hashed = hashlib.sha256()
    for piece in pieces:
        hashed.update(piece)
    return hashed.digest()


# ---- sealing and opening many files

Told = Callable[[int], None]  # of so many bytes that are done
Answer = Union[List[bytes], str]  # what is written of a part, or what is wrong with it


class Job(NamedTuple):
    """A file to read, and the one to write; `-` is standard input or output."""

    source: str
    target: str


class File:
    """A file that is being sealed or opened. Where memory can't hold it, it is gone through twice: see `Checked`."""

    def __init__(self, job: Job) -> None:
        self.job, self.name = job, name_of(job.source)
        self.fault: Optional[FileFault] = None
        self.source: Optional[Source] = None
        self.sink: Optional[Sink] = None
        self.sinks: List[Callable[[], Sink]] = []  # of each time that it is gone through

    def begin(self, head: Head, layout: Layout, sinks: Sequence[Callable[[], Sink]]) -> None:
        self.head, self.layout, self.sinks = head, layout, list(sinks)

    def give(self, root: Root) -> None:
        self.head, self.secret = replace(self.head, enc=root.enc), root.secret
        self.infos = list(islice(self.head.part_infos(), self.layout.parts))

    def task(self, part: int, texts: Sequence[bytes], end: bytes = b"") -> PartTask:
        return PartTask(self.head.suite, self.secret, self.infos[part], texts, None, end)

    def close(self) -> None:
        """Lets go of what is open. Of a file that isn't whole nothing is left."""
        for it in (self.sink, self.source):
            if it is not None:
                it.close()
        self.sink = self.source = None

    def fail(self, fault: Exception) -> None:
        why = fault.why if isinstance(fault, FileFault) else str(fault)
        if isinstance(fault, FileFault) and fault.path != self.name:
            why = f"not written to {fault.path}: {why}"
        self.fault = self.fault or FileFault(self.name, why)
        self.close()

    @contextmanager
    def keeping_faults(self) -> Iterator[None]:
        try:
            yield
        except (FileFault, WrongKey, RunFailed) as fault:
            self.fail(fault)


class Unit(NamedTuple):
    """A part of a file, as it was read. `turn` counts how often the file was gone through before."""

    file: File
    turn: int
    part: int
    task: PartTask


class Work:
    """Reads files, has their parts sealed or opened, and writes the others. A fault of one file leaves the others."""

    def __init__(
        self, jobs: Sequence[Job], told: Told, psk: Optional[Psk] = None, info: bytes = b"", runner: Optional[Runner] = None
    ) -> None:
        self.jobs, self.told, self.runner = jobs, told, runner
        self.psk, self.info = arguments.psk(psk), MAGIC + arguments.info(info)

    def run(self) -> List[FileFault]:
        """What was wrong, of each file that isn't done."""
        faults: List[FileFault] = []
        for first in range(0, len(self.jobs), FILES_AT_ONCE):
            files = [File(job) for job in self.jobs[first : first + FILES_AT_ONCE]]
            try:
                self._run(files)
            finally:
                for file in files:
                    file.close()
            faults += [file.fault for file in files if file.fault is not None]
        return faults

    def _run(self, files: Sequence[File]) -> None:
        for file in files:
            with file.keeping_faults():
                if file.job.target != STANDARD and os.path.lexists(file.job.target):
                    raise FileFault(file.job.target, IS_THERE)
                file.source = opened(file.job.source)
                self.begin(file, file.source)
        begun = [file for file in files if file.fault is None]
        for file, root in zip(begun, self.roots(begun)):
            file.give(root)
        for group in grouped(self._units(begun), lambda unit: measured(unit.task), OF_ONE_RUN):
            self._do(group)

    def _units(self, files: Sequence[File]) -> Iterator[Unit]:
        for file in files:
            for turn in range(len(file.sinks)):
                for part in range(file.layout.parts):
                    with file.keeping_faults():
                        if file.source is not None:
                            yield Unit(file, turn, part, self.read(file, file.source, part))

    def _do(self, group: Sequence[Unit]) -> None:
        try:
            answers = self.answers(group)
        except RunFailed as fault:
            answers = [str(fault)] * len(group)
        for unit, answer in zip(group, answers):
            with unit.file.keeping_faults():
                if unit.file.source is not None:
                    self._write(unit, unit.file.source, answer)
            self.told(sum(map(len, unit.task.texts)))

    def _write(self, unit: Unit, source: Source, answer: Answer) -> None:
        file = unit.file
        if isinstance(answer, str):
            raise FileFault(file.name, answer)
        if unit.part == 0:
            file.sink = file.sinks[unit.turn]()
        assert file.sink is not None
        file.sink.write(answer)
        if unit.part == file.layout.parts - 1:
            file.sink.finish(0o600 | (0o666 & source.mode))
            if unit.turn == len(file.sinks) - 1:
                file.close()

    # ---- what sealing and opening differ in

    def begin(self, file: File, source: Source) -> None:
        """Begins the file, with its head and its sinks."""
        raise NotImplementedError

    def roots(self, files: Sequence[File]) -> List[Root]:
        raise NotImplementedError

    def read(self, file: File, source: Source, part: int) -> PartTask:
        raise NotImplementedError

    def answers(self, units: Sequence[Unit]) -> Sequence[Answer]:
        raise NotImplementedError


class Sealing(Work):
    """Seals files to a public key."""

    def __init__(
        self,
        jobs: Sequence[Job],
        to: PublicKey,
        told: Told,
        psk: Optional[Psk] = None,
        info: bytes = b"",
        runner: Optional[Runner] = None,
    ) -> None:
        super().__init__(jobs, told, psk, info, runner)
        self.to, self.suite = to, Suite(to.kem, Kdf.HKDF_SHA256, Aead.AES_256_GCM)

    def begin(self, file: File, source: Source) -> None:
        counts = source.size.to_bytes(SIZE_SIZE, "big")
        head = Head(MAGIC, self.suite, recipient_of(self.to), secrets.token_bytes(ID_SIZE), counts, b"")
        file.begin(head, Layout(source.size), [sink_of(file.job.target)])

    def roots(self, files: Sequence[File]) -> List[Root]:
        asked = [RootAsked(self.info, self.suite.kdf)] * len(files)
        return sender_roots(self.to, asked, self.psk, self.runner)

    def read(self, file: File, source: Source, part: int) -> PartTask:
        sizes = file.layout.sizes(part)
        chunks = [source.read(size) for size in sizes]
        if [len(chunk) for chunk in chunks] != sizes:
            raise FileFault(file.name, "it became shorter while it was read")
        if part == file.layout.parts - 1 and source.read(1):
            raise FileFault(file.name, "it grew while it was read")
        return file.task(part, chunks)

    def answers(self, units: Sequence[Unit]) -> Sequence[Answer]:
        made = seal_parts([unit.task for unit in units], self.runner)
        heads = [[unit.file.head.to_bytes()] if unit.part == 0 else [] for unit in units]
        return [[*head, *it.ciphertexts, it.end] for head, it in zip(heads, made)]


class Opening(Work):
    """Opens sealed files by a secret key."""

    def __init__(
        self,
        jobs: Sequence[Job],
        key: SecretKey,
        told: Told,
        psk: Optional[Psk] = None,
        info: bytes = b"",
        runner: Optional[Runner] = None,
    ) -> None:
        super().__init__(jobs, told, psk, info, runner)
        self.key = key

    def begin(self, file: File, source: Source) -> None:
        head = read_head(source)
        wrong = head.fault_of(self.key)
        if wrong is not None:
            raise wrong
        layout = layout_of(head)
        due = layout.sealed_size(head)
        if source.size != due:
            what = "cut" if source.size < due else "too long"
            raise FileFault(file.name, f"it is spoilt: {what}, {source.size:,} bytes in place of {due:,}")
        file.begin(head, layout, self._sinks(file.job.target, layout))

    def _sinks(self, target: str, layout: Layout) -> Sequence[Callable[[], Sink]]:
        if target != STANDARD:
            return [sink_of(target)]
        if layout.size <= MOST_IN_MEMORY:
            return [Held]
        digests: List[bytes] = []
        return [lambda: Checked(digests), lambda: CheckedAgain(digests)]

    def roots(self, files: Sequence[File]) -> List[Root]:
        asked = [RootAsked(self.info, file.head.suite.kdf, file.head.enc) for file in files]
        return recipient_roots(self.key, asked, self.psk, self.runner)

    def read(self, file: File, source: Source, part: int) -> PartTask:
        if part == 0:
            source.rewind()
            source.read(len(file.head.to_bytes()))
        chunks = [source.read(size + TAG_SIZE) for size in file.layout.sizes(part)]
        return file.task(part, chunks, source.read(TAG_SIZE))

    def answers(self, units: Sequence[Unit]) -> Sequence[Answer]:
        made = open_parts([unit.task for unit in units], self.runner)
        return [it.texts if it.is_whole else _fault(unit, it) for unit, it in zip(units, made)]


def _fault(unit: Unit, opened_part: OpenedPart) -> str:
    if len(opened_part.texts) == len(unit.task.texts):
        return f"it is cut or spliced, or psk or info aren't the sender's: the end mark of its part {unit.part} doesn't open"
    at = unit.part * CHUNKS_OF_PART + len(opened_part.texts)
    if at == 0:
        return "it doesn't open from its first MiB on: it is spoilt, or psk or info aren't the sender's"
    return f"it is spoilt in its MiB number {at + 1}; nothing of it was written"


def sink_of(target: str) -> Callable[[], Sink]:
    if target == STANDARD:
        return ToStandardOutput
    return lambda: NewFile(target)
