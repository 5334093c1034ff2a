"""Parts of what is sealed: contexts that share the secret of one encapsulation, several to a batch.

The encapsulation belongs to a context that only exports: its secret is the shared secret of each part's context. Those
functions that run one batch may be sent to another process by an executor: they are given that secret, and no key.
"""

from __future__ import annotations

from contextlib import contextmanager
from typing import Callable, Iterable, Iterator, List, NamedTuple, Optional, Sequence, Tuple, TypeVar

from .answers import OpenedAnswer, Refusal
from .asked import Context
from .batch import Batch, Lane
from .command import Runner
from .errors import KeyRefused
from .keys import PublicKey, SecretKey
from .reply import Reply
from .sealed import Suite
from .suites import LIMITS, TAG_SIZE, Aead, Kdf, Limits, Psk

T = TypeVar("T")
ROOT_LABEL = b"hpkebatch parts 2"
ROOT_SIZE = 32
END_AAD = b"end"
MOST_WORKERS = 4
# Digits and words of a line, beside those of its fields.
COST_OF_LINE = 128
# What a message takes beside its own digits: `unseal 255 - CT` and the digits of its tag.
COST_OF_MESSAGE = 16 + 2 * TAG_SIZE


def grouped(
    items: Iterable[T], measured: Callable[[T], Tuple[int, int]], limits: Limits, share: int = 1
) -> Iterator[List[T]]:
    """The items in groups that a batch can hold, or that a share of a batch can. Of each item is measured how many
    bytes it takes, and how many calls."""
    group: List[T] = []
    size = calls = 0
    for it in items:
        more_size, more_calls = measured(it)
        is_full = size + more_size > limits.input // share - 4096 or calls + more_calls > limits.items // share
        if group and (is_full or len(group) == limits.contexts):
            yield group
            group, size, calls = [], 0, 0
        group.append(it)
        size, calls = size + more_size, calls + more_calls
    if group:
        yield group


# ---- roots: an encapsulation, and the secret that is exported from its context


class Root(NamedTuple):
    enc: bytes
    secret: bytes

    def __repr__(self) -> str:
        return "<Root>"


class RootAsked(NamedTuple):
    """What a root's context is made of; `enc` is empty for a sender. And what is exported from it."""

    info: bytes
    kdf: Kdf
    enc: bytes = b""
    aead: Aead = Aead.EXPORT_ONLY
    label: bytes = ROOT_LABEL
    size: int = ROOT_SIZE


def sender_roots(
    to: PublicKey, asked: Sequence[RootAsked], psk: Optional[Psk], runner: Optional[Runner], limits: Limits = LIMITS
) -> List[Root]:
    """Fresh roots."""
    roots: List[Root] = []
    for group in grouped(asked, _root_measure(psk), limits):
        batch = Batch(limits=limits)
        key = batch.peer(to.data, to.kem)
        contexts = [batch.send(key, it.info, kdf=it.kdf, aead=it.aead, psk=psk, limit=1) for it in group]
        roots += _exported(batch, contexts, group, runner)
    return roots


def recipient_roots(
    key: SecretKey, asked: Sequence[RootAsked], psk: Optional[Psk], runner: Optional[Runner], limits: Limits = LIMITS
) -> List[Root]:
    """The roots of given encapsulations."""
    roots: List[Root] = []
    for group in grouped(asked, _root_measure(psk), limits):
        batch = Batch(limits=limits)
        own = batch.secret(key.data, key.kem)
        contexts = [batch.recv(own, it.enc, it.info, kdf=it.kdf, aead=it.aead, psk=psk, limit=1) for it in group]
        roots += _exported(batch, contexts, group, runner)
    return roots


def _root_measure(psk: Optional[Psk]) -> Callable[[RootAsked], Tuple[int, int]]:
    given = len(psk.secret) + len(psk.id) if psk else 0
    return lambda it: (2 * (COST_OF_LINE + len(it.info) + len(it.enc) + given), 1)


def _exported(
    batch: Batch, contexts: Sequence[Context], asked: Sequence[RootAsked], runner: Optional[Runner]
) -> List[Root]:
    """What contexts of this batch export. A reply has the encapsulation of a sender alone."""
    lane = batch.lane()
    calls = [lane.export(context, it.label, it.size) for context, it in zip(contexts, asked)]
    reply = batch.run(workers=1, runner=runner)
    for key in batch.keys:
        answer = reply.answer(key)
        if isinstance(answer, Refusal) and answer.word == "form":
            raise KeyRefused()
    rows = zip(contexts, calls, asked)
    return [Root(reply[context].enc or it.enc, reply[call].secret) for context, call, it in rows]


# ---- parts


class PartTask(NamedTuple):
    """A part to seal or to open; `end` is the end mark of one to open."""

    suite: Suite
    secret: bytes
    info: bytes
    texts: Sequence[bytes]
    aads: Optional[Sequence[bytes]] = None
    end: bytes = b""

    def __repr__(self) -> str:
        return f"<PartTask of {len(self.texts)} messages>"


class SealedPart(NamedTuple):
    ciphertexts: List[bytes]
    end: bytes


class OpenedPart(NamedTuple):
    """The messages that opened, from the first on, and whether the end mark did."""

    texts: List[bytes]
    is_whole: bool

    def __repr__(self) -> str:
        return f"<OpenedPart of {len(self.texts)} messages>"


def measured(part: PartTask) -> Tuple[int, int]:
    """How much of a batch a part takes, in bytes and calls, also where it is opened after it was sealed."""
    calls = len(part.texts) + 1
    size = sum(map(len, part.texts)) + (0 if part.aads is None else sum(map(len, part.aads)))
    return 2 * (COST_OF_LINE + len(part.info) + size) + calls * COST_OF_MESSAGE, calls


def seal_parts(parts: Sequence[PartTask], runner: Optional[Runner] = None, limits: Limits = LIMITS) -> List[SealedPart]:
    """Seals in one batch. The same parts give the same bytes."""
    batch, rows = _contexts("send", parts, limits)
    for part, (context, lane, _) in zip(parts, rows):
        lane.seal_each(context, part.texts, part.aads)
        lane.seal(context, b"", END_AAD)
    with _reply(batch, runner) as reply:
        return [_sealed(reply, lane, first, len(part.texts)) for part, (_, lane, first) in zip(parts, rows)]


def _sealed(reply: Reply, lane: Lane, first: int, count: int) -> SealedPart:
    texts = reply.texts(lane, first, first + count + 1, b"sealed %d ")
    if isinstance(texts, int):
        raise AssertionError(f"a message wasn't sealed: {reply.answer(lane.calls[first + texts])}")
    return SealedPart(texts[:-1], texts[-1])


def open_parts(parts: Sequence[PartTask], runner: Optional[Runner] = None, limits: Limits = LIMITS) -> List[OpenedPart]:
    """Opens in one batch."""
    batch, rows = _contexts("recv", parts, limits)
    for part, (context, lane, _) in zip(parts, rows):
        lane.unseal_each(context, part.texts, part.aads)
        lane.unseal(context, part.end, END_AAD)
    with _reply(batch, runner) as reply:
        return [_opened(reply, lane, first, len(part.texts)) for part, (_, lane, first) in zip(parts, rows)]


def _opened(reply: Reply, lane: Lane, first: int, count: int) -> OpenedPart:
    texts = reply.texts(lane, first, first + count, b"opened %d ")
    if not isinstance(texts, int):
        return OpenedPart(texts, reply.answer(lane.calls[first + count]) == OpenedAnswer(count, b""))
    before = reply.texts(lane, first, first + texts, b"opened %d ")
    assert not isinstance(before, int)
    return OpenedPart(before, False)


def _contexts(role: str, parts: Sequence[PartTask], limits: Limits) -> Tuple[Batch, List[Tuple[Context, Lane, int]]]:
    """A batch, and of each part its context, its lane and the number of its first call there."""
    batch = Batch(limits=limits)
    lanes = [batch.lane() for _ in range(min(len(parts), limits.lanes))]
    firsts = [0] * len(lanes)
    rows = []
    for place, part in enumerate(parts):
        kem, kdf, aead = part.suite
        limit = len(part.texts) + 1
        context = batch.share(role, kem.id, part.secret, part.info, kdf=kdf, aead=aead, limit=limit)
        at = place % len(lanes)
        rows.append((context, lanes[at], firsts[at]))
        firsts[at] += limit
    return batch, rows


@contextmanager
def _reply(batch: Batch, runner: Optional[Runner]) -> Iterator[Reply]:
    """The reply, for as long as it is read. Then both texts are let go of: they are large, and hold one another."""
    reply = batch.run(workers=min(len(batch.lanes), MOST_WORKERS), runner=runner)
    try:
        yield reply
    finally:
        reply.lines.close()
        for lane in batch.lanes:
            lane.calls.clear()
            lane._lines.clear()
