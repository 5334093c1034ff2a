"""What a batch asks for: keys, contexts and calls. `reply[it]` is the answer to any of these."""

from __future__ import annotations

from typing import TYPE_CHECKING, Any, ClassVar, Generic, Optional, Tuple, TypeVar, Union

from .answers import (
    AddedAnswer,
    AnsweredAnswer,
    AskedAnswer,
    ContextAnswer,
    ExportedAnswer,
    FailedAnswer,
    KeyAnswer,
    LimitAnswer,
    OpenedAllAnswer,
    OpenedAnswer,
    RetiredAnswer,
    SealedAnswer,
    TookAnswer,
)
from .suites import Kem

if TYPE_CHECKING:
    from .batch import Lane, SeededBatch

A = TypeVar("A")


class Asked(Generic[A]):
    """Something that a line of a batch asks for. Its answer is an `A`, or a refusal."""

    __slots__ = ("batch", "number")
    allowed: ClassVar[Tuple[type, ...]] = ()  # what may be read for it, refusals aside

    def __init__(self, batch: SeededBatch, number: int) -> None:
        self.batch, self.number = batch, number

    def __repr__(self) -> str:
        return f"<{self}>"

    def __reduce__(self) -> Tuple[Any, ...]:
        """In another process it is told by its words: exceptions get there, and batches don't."""
        return str, (str(self),)


class Key(Asked[KeyAnswer]):
    __slots__ = ("kem",)
    allowed = (KeyAnswer,)

    def __init__(self, batch: SeededBatch, number: int, kem: Optional[Kem] = None) -> None:
        super().__init__(batch, number)
        self.kem = kem

    def __str__(self) -> str:
        return f"key {self.number}"


class Context(Asked[ContextAnswer]):
    """A context of a context line. Calls name it by `name`."""

    __slots__ = ()
    allowed = (ContextAnswer,)

    @property
    def name(self) -> bytes:
        return b"%d" % self.number

    def __str__(self) -> str:
        return f"context {self.number}"


class AddedName:
    """A context by the number of its `add` line, as `+K` in docs/FORMAT.md."""

    __slots__ = ("batch", "number")

    def __init__(self, batch: SeededBatch, number: int) -> None:
        self.batch, self.number = batch, number

    @property
    def name(self) -> bytes:
        return b"+%d" % self.number


class Call(Asked[A]):
    """A call of a lane; `number` counts the calls of its lane from 0."""

    __slots__ = ("lane",)
    word: ClassVar[str]

    def __init__(self, lane: Lane, number: int) -> None:
        self.batch, self.number, self.lane = lane.batch, number, lane

    @property
    def items(self) -> int:
        return 1

    def __str__(self) -> str:
        return f"call {self.number} ({self.word}) of lane {self.lane.number}"


class SealCall(Call[SealedAnswer]):
    __slots__ = ()
    word = "seal"
    allowed = (SealedAnswer, LimitAnswer)


class UnsealCall(Call[OpenedAnswer]):
    __slots__ = ()
    word = "unseal"
    allowed = (OpenedAnswer, FailedAnswer, LimitAnswer)


class UnsealAllCall(Call[OpenedAllAnswer]):
    __slots__ = ("_items",)
    word = "unsealall"
    allowed = (OpenedAnswer, FailedAnswer, LimitAnswer)

    def __init__(self, lane: Lane, number: int, items: int) -> None:
        super().__init__(lane, number)
        self._items = items

    @property
    def items(self) -> int:
        return self._items


class ExportCall(Call[ExportedAnswer]):
    __slots__ = ()
    word = "export"
    allowed = (ExportedAnswer,)


class RetireCall(Call[RetiredAnswer]):
    __slots__ = ()
    word = "retire"
    allowed = (RetiredAnswer,)


class Added(Call[AddedAnswer]):
    """An `add` line: a call, and the context that it adds."""

    __slots__ = ()
    word = "add"
    allowed = (AddedAnswer,)

    @property
    def name(self) -> bytes:
        """`+K`, by the place of the line among all `add` lines: it may change while lanes before it grow."""
        return b"+%d" % self.lane.batch.place_of(self)


AnyContext = Union[Context, Added, AddedName]
AnyAsked = Asked[Any]


# ---- of capsules


class Ask(Asked[AskedAnswer]):
    __slots__ = ("aead",)
    allowed = (AskedAnswer,)

    def __init__(self, batch: SeededBatch, number: int, aead: int) -> None:
        super().__init__(batch, number)
        self.aead = aead

    def __str__(self) -> str:
        return f"ask {self.number}"


class Answer(Asked[AnsweredAnswer]):
    __slots__ = ()
    allowed = (AnsweredAnswer,)

    def __str__(self) -> str:
        return f"answer {self.number}"


class Take(Asked[TookAnswer]):
    __slots__ = ()
    allowed = (TookAnswer,)

    def __str__(self) -> str:
        return f"take {self.number}"
