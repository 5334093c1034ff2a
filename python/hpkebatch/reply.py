"""Replies, read along their batch. Each answer is read from its line where it is asked for."""

from __future__ import annotations

from bisect import bisect_right
from dataclasses import dataclass
from typing import TYPE_CHECKING, Any, Iterator, List, Optional, Sequence, Tuple, TypeVar, Union, cast

from .answers import (
    FailedAnswer,
    ItemAnswer,
    LimitAnswer,
    LineAnswer,
    OpenedAllAnswer,
    Refusal,
    printed,
    read,
    read_batch_line,
)
from .asked import Added, AnyAsked, AnyContext, Asked, Call, Key, UnsealAllCall
from .command import Runner, Text, output_of
from .errors import IllegalReply, ReplyError
from .lines import Lines

if TYPE_CHECKING:
    from .batch import Batch, Lane

A = TypeVar("A")
Answered = Union[A, Refusal, FailedAnswer, LimitAnswer]
DIGITS = frozenset(b"%d" % digit for digit in range(10))


@dataclass(frozen=True)
class Place:
    """A line of a journal: which item of which call. Version 1 has no stamps."""

    lane: int
    call: int
    item: int
    stamp: Optional[int] = None

    def line(self) -> bytes:
        pieces = (self.lane, self.call, self.item) if self.stamp is None else (self.lane, self.call, self.item, self.stamp)
        return b" ".join(b"%d" % it for it in pieces)


@dataclass(frozen=True)
class Journal:
    """The seals and openings that a context served, in their order. `name` is `C`, or `+K` of an added context."""

    name: str
    places: Tuple[Place, ...]

    def lines(self) -> List[bytes]:
        return [b"journal " + self.name.encode(), *(place.line() for place in self.places)]


@dataclass(frozen=True)
class Note:
    """A line of the table of `live`: whether the context was live when this call came to it."""

    lane: int
    call: int
    is_live: bool
    stamp: int

    def line(self) -> bytes:
        return b"%d %d %d %d" % (self.lane, self.call, self.is_live, self.stamp)


def answer_at(lines: Lines, at: int, front: bytes = b"") -> LineAnswer:
    """What line number `at`, from 0, says behind this front."""
    line = lines[at]
    if not line.startswith(front):
        raise ReplyError(at + 1, f"a line `{front.decode()}..` should stand here")
    try:
        return read(line[len(front) :])
    except ValueError as fault:
        raise ReplyError(at + 1, str(fault)) from None


def fitting(asked: Asked[Any], answer: LineAnswer, at: int) -> LineAnswer:
    """The answer, where it is of a form that answers what was asked."""
    if not isinstance(answer, (Refusal, *asked.allowed)):
        raise ReplyError(at + 1, f"this doesn't answer {asked}")
    return answer


def given(asked: Asked[A], answer: Any) -> A:
    """The answer, where it is none of the refusals: these are raised."""
    if isinstance(answer, (Refusal, FailedAnswer, LimitAnswer)):
        raise answer.error(asked)
    return cast(A, answer)


class Reply:
    """The reply to a batch. `reply[asked]` is the answer to a key, a context or a call, and raises where there is
    none; `reply.answer(asked)` tells of refusals too, and raises for none of them."""

    def __init__(self, batch: Batch, text: Text, *, is_live: bool = False) -> None:
        self.batch, self.is_live = batch, is_live
        self.lines = Lines(text)
        self.lines.expect(0, b"hpkebatch %d" % batch.version)
        at = 1 + len(batch.keys) + len(batch.contexts)
        # Of each lane: the line, from 0, at which each call's answer begins, and that behind its last answer.
        self._starts: List[Sequence[int]] = []
        for lane in batch.lanes:
            self.lines.expect(at, b"lane %d" % lane.number)
            self._starts.append(self._starts_of(lane, at + 1))
            at = self._starts[-1][-1]
        self._first_journal = at
        self._sections_read: Optional[Tuple[List[Journal], List[Note]]] = None
        if not self.lines[at]:
            raise ReplyError(len(self.lines), "the reply has too few lines for its batch")

    def __repr__(self) -> str:
        return f"<Reply to {self.batch!r}>"

    def _starts_of(self, lane: Lane, at: int) -> Sequence[int]:
        if not lane.has_openings:
            return range(at, at + len(lane.calls) + 1)
        starts = [at]
        for call in lane.calls:
            is_served = isinstance(call, UnsealAllCall) and not self.lines[at].startswith(b"refused ")
            at += call.items + 1 if is_served else 1
            starts.append(at)
        return starts

    # ---- answers

    def __getitem__(self, asked: Asked[A]) -> A:
        return given(asked, self._answer(asked))

    def answer(self, asked: Asked[A]) -> Answered[A]:
        """What the reply says of a key, a context or a call, refused or not."""
        return cast(Answered[A], self._answer(asked))

    def _answer(self, asked: AnyAsked) -> Union[LineAnswer, OpenedAllAnswer]:
        if asked.batch is not self.batch:
            raise ValueError(f"{asked} is of another batch")
        at, front = self._place_of(asked)
        if isinstance(asked, UnsealAllCall) and not self.lines[at].startswith(b"refused "):
            return self._opened_all(asked, at)
        return fitting(asked, answer_at(self.lines, at, front), at)

    def _place_of(self, asked: AnyAsked) -> Tuple[int, bytes]:
        if isinstance(asked, Call):
            return self._starts[asked.lane.number][asked.number], b""
        is_key = isinstance(asked, Key)
        before, count = (0, len(self.batch.keys)) if is_key else (len(self.batch.keys), len(self.batch.contexts))
        if asked.number >= count:
            raise LookupError(f"the batch has no {asked}")
        return 1 + before + asked.number, b"%b %d " % (b"key" if is_key else b"context", asked.number)

    def _opened_all(self, asked: UnsealAllCall, at: int) -> OpenedAllAnswer:
        items = [fitting(asked, answer_at(self.lines, it), it) for it in range(at, at + asked.items)]
        try:
            guess, missed = read_batch_line(self.lines[at + asked.items])
        except ValueError as fault:
            raise ReplyError(at + asked.items + 1, str(fault)) from None
        return OpenedAllAnswer(tuple(cast(List[ItemAnswer], items)), guess, missed, asked)

    def texts(self, lane: Lane, first: int, end: int, form: bytes) -> Union[List[bytes], int]:
        """The bytes that answer calls of one message each, of a lane and from number 0 on: see `Lines.texts`."""
        starts = self._starts[lane.number]
        return self.lines.texts(starts[first], starts[end], form)

    def asked_at(self, line: int) -> Optional[AnyAsked]:
        """What a line of the reply answers, counted from 1; None for a line that answers nothing."""
        set_up: List[AnyAsked] = [*self.batch.keys, *self.batch.contexts]
        if 2 <= line < 2 + len(set_up):
            return set_up[line - 2]
        for lane, starts in zip(self.batch.lanes, self._starts):
            if starts[0] <= line - 1 < starts[-1]:
                return lane.calls[bisect_right(starts, line - 1) - 1]
        return None

    # ---- journals

    @property
    def journals(self) -> List[Journal]:
        """The journals of all contexts, in the order of the reply."""
        return self._sections()[0]

    @property
    def table(self) -> List[Note]:
        """The notes of a reply of `live`."""
        return self._sections()[1]

    def journal(self, context: AnyContext) -> Journal:
        """The journal of one context."""
        name = context.name.decode()
        for journal in self.journals:
            if journal.name == name:
                return journal
        raise LookupError(f"the reply has no journal of context {name}")

    def history(self) -> List[Union[Place, Note]]:
        """The places of all journals and the notes of the table, in the order of their stamps (version 2)."""
        if self.batch.version == 1:
            raise ValueError("a reply of version 1 has no stamps: each of its journals stands by itself")
        places = [place for journal in self.journals for place in journal.places]
        return sorted([*places, *self.table], key=lambda it: it.stamp or 0)

    def _sections(self) -> Tuple[List[Journal], List[Note]]:
        if self._sections_read is None:
            self._sections_read = self._read_sections()
        return self._sections_read

    def _names(self) -> Iterator[bytes]:
        """The heads of the sections that are due."""
        yield from (b"journal %d" % number for number in range(len(self.batch.contexts)))
        if self.is_live:
            adds = sum(isinstance(call, Added) for lane in self.batch.lanes for call in lane.calls)
            yield from (b"journal +%d" % number for number in range(adds))
            yield b"table"

    def _read_sections(self) -> Tuple[List[Journal], List[Note]]:
        journals, notes, at = [], [], self._first_journal
        for name in self._names():
            self.lines.expect(at, name)
            rows, at = rows_at(self.lines, at + 1, 3 if self.batch.version == 1 else 4)
            if name == b"table":
                notes = [Note(lane, call, bool(bit), stamp) for lane, call, bit, stamp in rows]
            else:
                journals.append(Journal(name[8:].decode(), tuple(Place(*row) for row in rows)))
        if at != len(self.lines) - 1:
            raise ReplyError(at + 1, "`end` should stand here")
        return journals, notes

    # ---- the text, and whether it is right

    def text(self) -> bytes:
        """The reply, printed from what was read of it."""
        lines = [b"hpkebatch %d" % self.batch.version]
        set_up: List[AnyAsked] = [*self.batch.keys, *self.batch.contexts]
        for asked in set_up:
            _, front = self._place_of(asked)
            lines.append(front + printed(self.answer(asked))[0])
        for lane in self.batch.lanes:
            lines.append(b"lane %d" % lane.number)
            for call in lane.calls:
                lines += printed(self.answer(call))
        for journal in self.journals:
            lines += journal.lines()
        if self.is_live:
            lines += [b"table", *(note.line() for note in self.table)]
        return b"\n".join([*lines, b"end", b""])

    def check(self, *, mult: Optional[str] = None, runner: Optional[Runner] = None) -> Reply:
        """Has the program judge whether `run`, or `live`, may have written this reply; raises IllegalReply where not."""
        try:
            _check([*self.batch.pieces(), self.lines.text], self.is_live, mult, runner)
        except IllegalReply as fault:
            raise IllegalReply(fault.kind, fault.at, self._about(fault)) from None
        return self

    def _about(self, fault: IllegalReply) -> Optional[AnyAsked]:
        if isinstance(fault.at, str):
            name = fault.at.encode()
            return next((it for lane in self.batch.lanes for it in lane.calls if isinstance(it, Added) and it.name == name), None)
        if fault.at is None:
            return None
        return self.batch.context(fault.at) if fault.kind == "journal" else self.asked_at(fault.at)


def check(
    batch: bytes, reply: bytes, *, is_live: bool = False, mult: Optional[str] = None, runner: Optional[Runner] = None
) -> None:
    """Has the program judge two texts, whoever wrote them; raises BadBatch or IllegalReply. `is_live` says that they
    are of `live`."""
    _check([batch, reply], is_live, mult, runner)


def _check(pieces: Sequence[Text], is_live: bool, mult: Optional[str], runner: Optional[Runner]) -> None:
    output_of(runner, ["check", *["--live"] * is_live, *([] if mult is None else ["--mult", mult])], pieces)


def rows_at(lines: Lines, at: int, width: int) -> Tuple[List[List[int]], int]:
    """The rows of so many numbers from line `at` on, and the line behind them."""
    rows = []
    while lines[at][:1] in DIGITS:
        row = lines[at].split(b" ")
        if len(row) != width or not all(it.isdigit() and (it[:1] != b"0" or it == b"0") for it in row):
            raise ReplyError(at + 1, f"a row of {width} numbers should stand here")
        rows.append([int(it) for it in row])
        at += 1
    return rows, at
