"""Sealed messages and the heads of what is sealed, as docs/FORMAT.md has them ("Key files and sealed files").

    magic                             `hpkebatch messages 2` or `hpkebatch sealed 2`, with a line feed
    KEM, KDF, AEAD                    2 bytes each, as in RFC 9180's suite_id
    recipient                         the first 8 bytes of SHA-256 of the public key
    id                                32 random bytes
    counts                            of messages: how many parts (4 bytes), and how many messages each has (4 bytes
                                      each); of a file: its size (8 bytes)
    enc                               the encapsulation

All numbers have their high byte first.
"""

from __future__ import annotations

import hashlib
from dataclasses import dataclass
from typing import Iterator, List, NamedTuple, Optional, Sequence, Tuple

from .errors import WrongKey
from .keys import HASH_SIZE, PublicKey, SecretKey, grouped
from .suites import ID_SIZE, KEMS, TAG_SIZE, Aead, Kdf, Kem

MESSAGES_MAGIC = b"hpkebatch messages 2\n"
PART_LABEL = b"hpkebatch part 2"
COUNT_SIZE = 4
MOST_PARTS = 2**32 - 1


class Suite(NamedTuple):
    kem: Kem
    kdf: Kdf
    aead: Aead

    def to_bytes(self) -> bytes:
        return b"".join(it.to_bytes(2, "big") for it in (self.kem.id, self.kdf, self.aead))


@dataclass(frozen=True)
class Head:
    """What the parts of a sealed thing are bound to, and its encapsulation."""

    magic: bytes
    suite: Suite
    recipient: bytes
    id: bytes
    counts: bytes
    enc: bytes

    def bound(self) -> bytes:
        """The bytes from the magic to the counts."""
        return self.magic + self.suite.to_bytes() + self.recipient + self.id + self.counts

    def to_bytes(self) -> bytes:
        return self.bound() + self.enc

    def part_infos(self) -> Iterator[bytes]:
        """The info of part 0, of part 1, and so on."""
        front = PART_LABEL + hashlib.sha256(self.bound()).digest()
        for place in range(MOST_PARTS):
            yield front + place.to_bytes(8, "big")

    def fault_of(self, key: SecretKey) -> Optional[WrongKey]:
        """The fault to raise where the head doesn't name this key."""
        own = recipient_of(key.public)
        if self.recipient == own and self.suite.kem == key.kem:
            return None
        return WrongKey(grouped(self.recipient), self.suite.kem.name, grouped(own), key.kem.name)


def recipient_of(key: PublicKey) -> bytes:
    return key.hash[:HASH_SIZE]


class Reader:
    """Takes a form apart. A ValueError where it is cut."""

    def __init__(self, data: bytes) -> None:
        self.data, self.at = data, 0

    def take(self, size: int) -> bytes:
        piece = self.data[self.at : self.at + size]
        if len(piece) != size:
            raise ValueError("they are cut")
        self.at += size
        return piece

    def number(self, size: int) -> int:
        return int.from_bytes(self.take(size), "big")

    def suite(self) -> Suite:
        ids = [self.number(2) for _ in range(3)]
        kems = [kem for kem in KEMS if kem.id == ids[0]]
        if not kems or ids[1] not in list(Kdf) or ids[2] not in (Aead.AES_128_GCM, Aead.AES_256_GCM):
            raise ValueError("they are spoilt, or of a newer version: their head names no suite that is known here")
        return Suite(kems[0], Kdf(ids[1]), Aead(ids[2]))


@dataclass(frozen=True, repr=False)
class Part:
    """Messages of one context, in their order, and the end mark that is sealed behind them."""

    ciphertexts: Tuple[bytes, ...]
    end: bytes

    def __repr__(self) -> str:
        return f"<Part of {counted(len(self.ciphertexts), 'message')}>"


@dataclass(frozen=True, repr=False)
class Sealed:
    """A list of messages, sealed to one key under one encapsulation, in one part or several. Nothing in it is secret.

    `open` tests that it is whole: that no message and no part is missing, moved, doubled, or of another list.
    """

    kem: Kem
    kdf: Kdf
    aead: Aead
    recipient: bytes
    id: bytes
    enc: bytes
    parts: Tuple[Part, ...]

    def __repr__(self) -> str:
        return f"<Sealed: {counted(len(self), 'message')} in {counted(len(self.parts), 'part')}>"

    def __len__(self) -> int:
        return sum(self.counts)

    @property
    def counts(self) -> List[int]:
        """How many messages each part has."""
        return [len(part.ciphertexts) for part in self.parts]

    @property
    def ciphertexts(self) -> List[bytes]:
        """The ciphertexts of all parts, in the order of the messages."""
        return [text for part in self.parts for text in part.ciphertexts]

    @property
    def head(self) -> Head:
        suite = Suite(self.kem, self.kdf, self.aead)
        return Head(MESSAGES_MAGIC, suite, self.recipient, self.id, counts_of(self.counts), self.enc)

    def to_bytes(self) -> bytes:
        """All of it as one byte string: the head, and of each part its messages, each behind its size in 4 bytes, and
        the 16 bytes of its end mark."""
        pieces = [self.head.to_bytes()]
        for part in self.parts:
            for text in part.ciphertexts:
                pieces += [_count(len(text)), text]
            pieces.append(part.end)
        return b"".join(pieces)

    @staticmethod
    def from_bytes(data: bytes) -> Sealed:
        """What `to_bytes` made; a ValueError where the bytes are cut or of another form. `open` tests the rest."""
        data = bytes(data)
        if data.startswith(b"hpkebatch messages 1\n"):
            raise ValueError("these sealed messages are of hpkebatch 0.2.0, whose form isn't read any more")
        if data.startswith(b"hpkebatch sealed "):
            raise ValueError("this is a sealed file, and not sealed messages: the command hpkebatch opens it")
        if not data.startswith(MESSAGES_MAGIC):
            raise ValueError("these bytes aren't sealed messages of hpkebatch")
        try:
            return _read(Reader(data))
        except ValueError as fault:
            raise ValueError(f"these aren't whole sealed messages: {fault}") from None


def _read(source: Reader) -> Sealed:
    source.take(len(MESSAGES_MAGIC))
    suite = source.suite()
    recipient, id = source.take(HASH_SIZE), source.take(ID_SIZE)
    count = source.number(COUNT_SIZE)
    counts = Reader(source.take(COUNT_SIZE * count))
    enc = source.take(suite.kem.enc_size)
    if count == 0:
        raise ValueError("they have no part")
    parts = []
    for _ in range(count):
        texts = [source.take(source.number(COUNT_SIZE)) for _ in range(counts.number(COUNT_SIZE))]
        parts.append(Part(tuple(texts), source.take(TAG_SIZE)))
    if source.at != len(source.data):
        raise ValueError("bytes follow their end")
    return Sealed(*suite, recipient, id, enc, tuple(parts))


def counted(count: int, what: str) -> str:
    return f"{count:,} {what}{'s' * (count != 1)}"


def counts_of(counts: Sequence[int]) -> bytes:
    """The counts of all parts, as a head has them."""
    return b"".join(map(_count, [len(counts), *counts]))


def _count(value: int) -> bytes:
    return value.to_bytes(COUNT_SIZE, "big")
