"""What the lines of a reply say, one class for each form. `read` reads a line, and `line` prints it back.

Keys, plaintexts and exported bytes don't show in a `repr`.
"""

from __future__ import annotations

from binascii import Error as NotHex
from binascii import hexlify, unhexlify
from dataclasses import dataclass, field
from typing import Any, Callable, Dict, List, Optional, Tuple, Union

from .errors import CallError, LimitReached, OpenFailed, Refused


def put(data: Optional[bytes]) -> bytes:
    return hexlify(data or b"") or b"-"


def get(piece: bytes) -> bytes:
    return b"" if piece == b"-" else unhexlify(piece)


@dataclass(frozen=True)
class Refusal:
    """`refused WORD`, of a key, a context or a call."""

    word: str

    def line(self) -> bytes:
        return b"refused " + self.word.encode()

    def error(self, asked: object) -> CallError:
        return Refused(self.word, asked)


@dataclass(frozen=True)
class KeyAnswer:
    """A key that stands: `generated` has both keys, `secret` the public one, `peer` none."""

    kind: str
    public: Optional[bytes] = None
    secret: Optional[bytes] = field(default=None, repr=False)

    def line(self) -> bytes:
        keys = [put(key) for key in (self.public, self.secret) if key is not None]
        return b" ".join([self.kind.encode(), *keys])


@dataclass(frozen=True)
class ContextAnswer:
    """A context that stands: `shared`, `sender` (with its encapsulation) or `recipient`."""

    kind: str
    enc: Optional[bytes] = None

    def line(self) -> bytes:
        return self.kind.encode() if self.enc is None else b"sender " + put(self.enc)


@dataclass(frozen=True)
class SealedAnswer:
    number: int
    ciphertext: bytes

    def line(self) -> bytes:
        return b"sealed %d %b" % (self.number, put(self.ciphertext))


@dataclass(frozen=True)
class OpenedAnswer:
    number: int
    plaintext: bytes = field(repr=False)

    def line(self) -> bytes:
        return b"opened %d %b" % (self.number, put(self.plaintext))


@dataclass(frozen=True)
class FailedAnswer:
    """A message that doesn't open at the number that it was tried at."""

    number: int

    def line(self) -> bytes:
        return b"failed %d" % self.number

    def error(self, asked: object) -> CallError:
        return OpenFailed(asked, self.number)


@dataclass(frozen=True)
class LimitAnswer:
    def line(self) -> bytes:
        return b"limit"

    def error(self, asked: object) -> CallError:
        return LimitReached(asked)


@dataclass(frozen=True)
class ExportedAnswer:
    secret: bytes = field(repr=False)

    def line(self) -> bytes:
        return b"exported " + put(self.secret)


@dataclass(frozen=True)
class AddedAnswer:
    def line(self) -> bytes:
        return b"added"


@dataclass(frozen=True)
class RetiredAnswer:
    def line(self) -> bytes:
        return b"retired"


ItemAnswer = Union[OpenedAnswer, FailedAnswer, LimitAnswer]


@dataclass(frozen=True)
class OpenedAllAnswer:
    """The items of an `unsealall`, and how far the program's guess of their numbers went."""

    items: Tuple[ItemAnswer, ...]
    guess: int
    missed: int
    asked: object = field(default=None, repr=False, compare=False)

    def __len__(self) -> int:
        return len(self.items)

    def __getitem__(self, item: int) -> bytes:
        """The plaintext of an item; raises where there is none."""
        found = self.items[item]
        if isinstance(found, OpenedAnswer):
            return found.plaintext
        raise found.error(f"item {item} of {self.asked}")

    @property
    def plaintexts(self) -> List[bytes]:
        """The plaintexts of all items; raises for the first that has none."""
        return [self[item] for item in range(len(self.items))]

    def lines(self) -> List[bytes]:
        return [*(item.line() for item in self.items), batch_line(self.guess, self.missed)]


# ---- of capsules


@dataclass(frozen=True)
class AskedAnswer:
    request: bytes

    def line(self) -> bytes:
        return b"asked " + put(self.request)


@dataclass(frozen=True)
class AnsweredAnswer:
    text: bytes = field(repr=False)
    response: bytes

    def line(self) -> bytes:
        return b"answered %b %b" % (put(self.text), put(self.response))


@dataclass(frozen=True)
class TookAnswer:
    text: bytes = field(repr=False)

    def line(self) -> bytes:
        return b"took " + put(self.text)


LineAnswer = Union[
    Refusal,
    KeyAnswer,
    ContextAnswer,
    SealedAnswer,
    OpenedAnswer,
    FailedAnswer,
    LimitAnswer,
    ExportedAnswer,
    AddedAnswer,
    RetiredAnswer,
    AskedAnswer,
    AnsweredAnswer,
    TookAnswer,
]

# By its first word and how many fields follow.
FORMS: Dict[Tuple[bytes, int], Callable[[List[bytes]], LineAnswer]] = {
    (b"refused", 1): lambda it: Refusal(it[0].decode("ascii")),
    (b"generated", 2): lambda it: KeyAnswer("generated", get(it[0]), get(it[1])),
    (b"secret", 1): lambda it: KeyAnswer("secret", get(it[0])),
    (b"peer", 0): lambda it: KeyAnswer("peer"),
    (b"shared", 0): lambda it: ContextAnswer("shared"),
    (b"sender", 1): lambda it: ContextAnswer("sender", get(it[0])),
    (b"recipient", 0): lambda it: ContextAnswer("recipient"),
    (b"sealed", 2): lambda it: SealedAnswer(int(it[0]), get(it[1])),
    (b"opened", 2): lambda it: OpenedAnswer(int(it[0]), get(it[1])),
    (b"failed", 1): lambda it: FailedAnswer(int(it[0])),
    (b"limit", 0): lambda it: LimitAnswer(),
    (b"exported", 1): lambda it: ExportedAnswer(get(it[0])),
    (b"added", 0): lambda it: AddedAnswer(),
    (b"retired", 0): lambda it: RetiredAnswer(),
    (b"asked", 1): lambda it: AskedAnswer(get(it[0])),
    (b"answered", 2): lambda it: AnsweredAnswer(get(it[0]), get(it[1])),
    (b"took", 1): lambda it: TookAnswer(get(it[0])),
}


def read(line: bytes) -> LineAnswer:
    """What a line says; a ValueError where it is of no form, or isn't spelled as the program prints it."""
    word, *fields = line.split(b" ")
    form = FORMS.get((word, len(fields)))
    try:
        answer = form(fields) if form else None
    except (NotHex, ValueError):
        answer = None
    if answer is None or answer.line() != line:
        raise ValueError("it has the form of no line of a reply")
    return answer


def read_batch_line(line: bytes) -> Tuple[int, int]:
    """G and M of a line `batch G M`."""
    word, *fields = line.split(b" ")
    if word == b"batch" and len(fields) == 2 and all(it.isdigit() and len(it) <= 20 for it in fields):
        guess, missed = int(fields[0]), int(fields[1])
        if batch_line(guess, missed) == line:
            return guess, missed
    raise ValueError("a line `batch G M` should stand here")


def batch_line(guess: int, missed: int) -> bytes:
    return b"batch %d %d" % (guess, missed)


def printed(answer: Any) -> List[bytes]:
    """The lines of an answer."""
    return answer.lines() if isinstance(answer, OpenedAllAnswer) else [answer.line()]
