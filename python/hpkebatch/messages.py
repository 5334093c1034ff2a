"""One call each: make a key pair, seal messages to a public key, open them, export a secret.

Each call draws its own seeds, so no key and nonce is used for two messages, also where an executor runs a task twice.
"""

from __future__ import annotations

import secrets
from dataclasses import dataclass
from itertools import accumulate, islice
from typing import (
    TYPE_CHECKING,
    Any,
    Callable,
    Generic,
    Iterable,
    Iterator,
    List,
    Literal,
    NamedTuple,
    Optional,
    Sequence,
    Tuple,
    TypeVar,
    Union,
    overload,
)

from . import arguments
from .batch import Batch
from .command import Runner
from .errors import MessageNotOpened
from .keys import KeyPair, PublicKey, SecretKey, public_key, secret_key
from .parts import COST_OF_MESSAGE, OpenedPart, PartTask, Root, RootAsked, SealedPart, grouped, measured
from .sealed import MESSAGES_MAGIC, Head, Part, Sealed, Suite, counts_of, recipient_of
from .suites import ID_SIZE, LIMITS, SNTRUP761, TAG_SIZE, Aead, Kdf, Kem, Limits, Psk
from .ways import key_pair, open_parts, recipient_roots, seal_parts, sender_roots

if TYPE_CHECKING:
    from concurrent.futures import Executor

AnyPublic = Union[PublicKey, bytes]
AnySecret = Union[SecretKey, bytes]
Progress = Callable[[int, int], None]
R = TypeVar("R")
PARTS_OF_BATCH = 4  # at the least: so many workers have a lane each


@dataclass(frozen=True, repr=False)
class Exported:
    """An exported secret, and the encapsulation by which the recipient exports the same."""

    enc: bytes
    secret: bytes

    def __repr__(self) -> str:
        return f"<Exported: a secret of {len(self.secret)} bytes>"


# ---- what users call


def generate_key(kem: Kem = SNTRUP761, *, runner: Optional[Runner] = None) -> KeyPair:
    """A new key pair."""
    pair = key_pair(kem, runner)
    if pair is not None:
        return pair
    batch = Batch()
    key = batch.keygen(kem)
    answer = batch.run(workers=1, runner=runner)[key]
    assert answer.public is not None and answer.secret is not None
    return KeyPair(PublicKey(answer.public), SecretKey(answer.secret))


@overload
def seal(
    messages: Iterable[bytes],
    *,
    to: AnyPublic,
    info: bytes = ...,
    aads: Optional[Iterable[bytes]] = ...,
    psk: Optional[Psk] = ...,
    kdf: Kdf = ...,
    aead: Aead = ...,
    alone: Literal[False] = ...,
    executor: Optional[Executor] = ...,
    runner: Optional[Runner] = ...,
    progress: Optional[Progress] = ...,
    limits: Limits = ...,
) -> Sealed: ...


@overload
def seal(
    messages: Iterable[bytes],
    *,
    to: AnyPublic,
    info: bytes = ...,
    aads: Optional[Iterable[bytes]] = ...,
    psk: Optional[Psk] = ...,
    kdf: Kdf = ...,
    aead: Aead = ...,
    alone: Literal[True],
    executor: Optional[Executor] = ...,
    runner: Optional[Runner] = ...,
    progress: Optional[Progress] = ...,
    limits: Limits = ...,
) -> List[Sealed]: ...


def seal(
    messages: Iterable[bytes],
    *,
    to: AnyPublic,
    info: bytes = b"",
    aads: Optional[Iterable[bytes]] = None,
    psk: Optional[Psk] = None,
    kdf: Kdf = Kdf.HKDF_SHA256,
    aead: Aead = Aead.AES_256_GCM,
    alone: bool = False,
    executor: Optional[Executor] = None,
    runner: Optional[Runner] = None,
    progress: Optional[Progress] = None,
    limits: Limits = LIMITS,
) -> Union[Sealed, List[Sealed]]:
    """Seals messages, of up to 1 MiB each, to the public key `to`: one `Sealed`, which opens as a whole.

    With `alone` it is a list of them, one for each message, each with an encapsulation of its own: what is lost or
    spoilt of one leaves the others.

    `info` and `aads` (associated data, one for each message) aren't sent: `open` wants the same. Without `psk`
    whoever has the public key can seal: then what opens is whole, but may be anybody's.

    Many messages are sealed in several parts. An `executor` runs the parts: one of threads, of processes, or of many
    machines. It is given the messages and a secret that belongs to them alone, and no key. Without one they run here.
    `progress` is called with the count of messages that are done, and of all.
    """
    key, psk, info = public_key(to, "to"), arguments.psk(psk), arguments.info(info)
    suite = arguments.suite(key.kem, kdf, aead)
    texts = arguments.octets_of_each(messages, "message", limits.message)
    whole = Piece(texts, arguments.aads_for(aads, len(texts), limits))
    pieces = [[it] for it in whole.singles()] if alone else [list(_cut(whole, limits))]
    roots = sender_roots(key, [RootAsked(MESSAGES_MAGIC + info, suite.kdf)] * len(pieces), psk, runner, limits)
    heads = [_head(suite, key, some, root) for some, root in zip(pieces, roots)]
    tasks = [task for head, root, some in zip(heads, roots, pieces) for task in _sealing_tasks(head, root, some)]
    parts = iter(_run_all(seal_parts, tasks, executor, runner, progress, limits))
    sealed = [_sealed(head, islice(parts, len(some))) for head, some in zip(heads, pieces)]
    return sealed if alone else sealed[0]


AnySealed = Union[Sealed, Iterable[Sealed]]


@overload
def open(
    sealed: AnySealed,
    *,
    key: AnySecret,
    info: bytes = ...,
    aads: Optional[Iterable[bytes]] = ...,
    psk: Optional[Psk] = ...,
    on_failure: Literal["raise"] = ...,
    executor: Optional[Executor] = ...,
    runner: Optional[Runner] = ...,
    progress: Optional[Progress] = ...,
    limits: Limits = ...,
) -> List[bytes]: ...


@overload
def open(
    sealed: AnySealed,
    *,
    key: AnySecret,
    info: bytes = ...,
    aads: Optional[Iterable[bytes]] = ...,
    psk: Optional[Psk] = ...,
    on_failure: Literal["none"],
    executor: Optional[Executor] = ...,
    runner: Optional[Runner] = ...,
    progress: Optional[Progress] = ...,
    limits: Limits = ...,
) -> List[Optional[bytes]]: ...


def open(
    sealed: AnySealed,
    *,
    key: AnySecret,
    info: bytes = b"",
    aads: Optional[Iterable[bytes]] = None,
    psk: Optional[Psk] = None,
    on_failure: str = "raise",
    executor: Optional[Executor] = None,
    runner: Optional[Runner] = None,
    progress: Optional[Progress] = None,
    limits: Limits = LIMITS,
) -> Union[List[bytes], List[Optional[bytes]]]:
    """The messages, opened with the secret key `key`. Those of several `Sealed` come in one list.

    Nothing is given before all was tried. The first message that doesn't open raises MessageNotOpened, which has those
    before it. With `on_failure="none"` the list has None for it, and for those behind it in its part: a context
    counts what it opened. A part with no messages has its end mark alone, and raises in any case where that fails.
    What is sealed to another key raises WrongKey, or is None where `on_failure` is "none" and some is sealed to this one.
    """
    own, psk, info = secret_key(key, "key"), arguments.psk(psk), arguments.info(info)
    if on_failure not in ("raise", "none"):
        raise ValueError('on_failure is "raise" or "none"')
    lists = _lists(sealed)
    is_ours = _named(lists, own, on_failure == "raise")
    dealt = _dealt(arguments.aads_for(aads, sum(map(len, lists)), limits), list(map(len, lists)))
    ours = [(it, some) for it, some, is_named in zip(lists, dealt, is_ours) if is_named]
    asked = [RootAsked(MESSAGES_MAGIC + info, it.kdf, it.enc) for it, _ in ours]
    roots = recipient_roots(own, asked, psk, runner, limits)
    tasks = [task for (it, some), root in zip(ours, roots) for task in _opening_tasks(it, root, some)]
    _test_sizes(tasks, limits)
    opened = iter(_run_all(open_parts, tasks, executor, runner, progress, limits))
    places = ((place, is_named) for it, is_named in zip(lists, is_ours) for place in range(len(it.parts)))
    parts = [(place, next(opened) if is_named else None) for place, is_named in places]
    return _texts(parts, [count for it in lists for count in it.counts], on_failure == "raise")


unseal = open


def export(
    label: bytes,
    size: int,
    *,
    to: Optional[AnyPublic] = None,
    key: Optional[AnySecret] = None,
    enc: Optional[bytes] = None,
    info: bytes = b"",
    psk: Optional[Psk] = None,
    kdf: Kdf = Kdf.HKDF_SHA256,
    aead: Aead = Aead.EXPORT_ONLY,
    runner: Optional[Runner] = None,
) -> Exported:
    """A secret of `size` bytes that two ends share (RFC 9180, 6.2).

    The sender gives `to`, the recipient's public key, and sends the `enc` of the result. The recipient gives `key`,
    its secret key, and that `enc`. `label` is the exporter context; it, info, psk and suite are the same at both ends.
    """
    label, psk, info = arguments.octets(label, "label", LIMITS.field), arguments.psk(psk), arguments.info(info)
    arguments.test_export(size, kdf, aead)
    if to is not None and key is None and enc is None:
        asked = RootAsked(info, kdf, b"", aead, label, size)
        (root,) = sender_roots(public_key(to, "to"), [asked], psk, runner)
    elif to is None and key is not None and enc is not None:
        own = secret_key(key, "key")
        asked = RootAsked(info, kdf, arguments.encapsulation(enc, own.kem), aead, label, size)
        (root,) = recipient_roots(own, [asked], psk, runner)
    else:
        raise TypeError("export wants `to`, or `key` and `enc`")
    return Exported(root.enc, root.secret)


# ---- lists and their parts


class Piece(NamedTuple):
    """Messages, and their associated data."""

    texts: Sequence[bytes]
    aads: Optional[Sequence[bytes]]

    def cut(self, first: int, end: int) -> Piece:
        return Piece(self.texts[first:end], None if self.aads is None else self.aads[first:end])

    def singles(self) -> List[Piece]:
        return [self.cut(place, place + 1) for place in range(len(self.texts))]


def _cut(whole: Piece, limits: Limits) -> Iterator[Piece]:
    """The messages in parts, of which a batch holds several. No messages are one part."""
    most, room = max(1, limits.items // PARTS_OF_BATCH - 1), limits.input // PARTS_OF_BATCH - 8192
    first = size = 0
    for place, text in enumerate(whole.texts):
        more = COST_OF_MESSAGE + 2 * len(text) + (0 if whole.aads is None else 2 * len(whole.aads[place]))
        if place > first and (size + more > room or place - first == most):
            yield whole.cut(first, place)
            first, size = place, 0
        size += more
    yield whole.cut(first, len(whole.texts))


def _head(suite: Suite, key: PublicKey, pieces: Sequence[Piece], root: Root) -> Head:
    counts = counts_of([len(it.texts) for it in pieces])
    return Head(MESSAGES_MAGIC, suite, recipient_of(key), secrets.token_bytes(ID_SIZE), counts, root.enc)


def _sealing_tasks(head: Head, root: Root, pieces: Sequence[Piece]) -> List[PartTask]:
    return [PartTask(head.suite, root.secret, info, *it) for info, it in zip(head.part_infos(), pieces)]


def _opening_tasks(sealed: Sealed, root: Root, aads: Optional[Sequence[bytes]]) -> List[PartTask]:
    head = sealed.head
    rows = zip(head.part_infos(), sealed.parts, _dealt(aads, sealed.counts))
    return [PartTask(head.suite, root.secret, info, part.ciphertexts, some, part.end) for info, part, some in rows]


def _sealed(head: Head, parts: Iterable[SealedPart]) -> Sealed:
    made = tuple(Part(tuple(it.ciphertexts), it.end) for it in parts)
    return Sealed(*head.suite, head.recipient, head.id, head.enc, made)


def _lists(sealed: AnySealed) -> List[Sealed]:
    if isinstance(sealed, arguments.BYTES):
        raise TypeError("sealed is of type bytes: Sealed.from_bytes reads it")
    lists = [sealed] if isinstance(sealed, Sealed) else list(sealed)
    for it in lists:
        if not isinstance(it, Sealed):
            raise TypeError(f"a {type(it).__name__} isn't Sealed")
        if not it.parts or len(it.enc) != it.kem.enc_size or it.aead == Aead.EXPORT_ONLY:
            raise ValueError("this isn't what seal gave: it has no part, or an encapsulation of another size")
    return lists


def _named(lists: Sequence[Sealed], key: SecretKey, is_each_needed: bool) -> List[bool]:
    """Which lists name this key. WrongKey is raised where none does, or one doesn't and each has to."""
    faults = [it.head.fault_of(key) for it in lists]
    wrong = [fault for fault in faults if fault is not None]
    if wrong and (is_each_needed or len(wrong) == len(lists)):
        raise wrong[0]
    return [fault is None for fault in faults]


def _dealt(aads: Optional[Sequence[bytes]], counts: Sequence[int]) -> List[Optional[Sequence[bytes]]]:
    """The associated data of each list, or of each part."""
    if aads is None:
        return [None] * len(counts)
    return [aads[end - count : end] for count, end in zip(counts, accumulate(counts))]


def _test_sizes(tasks: Sequence[PartTask], limits: Limits) -> None:
    for task in tasks:
        size, calls = measured(task)
        is_long = max(map(len, task.texts), default=0) > limits.message + TAG_SIZE
        if is_long or size > limits.input - 4096 or calls > limits.items:
            raise ValueError("a part holds more than hpkebatch puts into one: it can't be opened")


def _texts(
    parts: Iterable[Tuple[int, Optional[OpenedPart]]], counts: Iterable[int], is_raising: bool
) -> Union[List[bytes], List[Optional[bytes]]]:
    """All messages, of each part with its place; a part that is None is sealed to another key."""
    texts: List[Any] = []
    for (place, part), count in zip(parts, counts):
        opened, is_whole = part or OpenedPart([], False)
        texts += opened
        if not is_whole and (is_raising or count == 0):
            raise MessageNotOpened(len(texts), place, len(opened) == count, texts)
        texts += [None] * (count - len(opened))
    return texts


# ---- running the parts


def _run_all(
    work: Callable[..., List[R]],
    tasks: Sequence[PartTask],
    executor: Optional[Executor],
    runner: Optional[Runner],
    progress: Optional[Progress],
    limits: Limits,
) -> List[R]:
    """What becomes of each part, in their order."""
    groups = list(grouped(tasks, measured, limits, 1 if executor is None else PARTS_OF_BATCH))
    futures = None if executor is None else [executor.submit(_Task(work, (it, runner, limits))) for it in groups]
    made: List[R] = []
    done, count = 0, sum(len(task.texts) for task in tasks)
    try:
        for place, group in enumerate(groups):
            made += work(group, runner, limits) if futures is None else futures[place].result().made
            done += sum(len(task.texts) for task in group)
            if progress is not None:
                progress(done, count)
    finally:
        for future in futures or ():
            future.cancel()
    return made


class _Task(Generic[R]):
    """A task with what it is given and what it gives, as one object: some engines look at each message of a list.

    Its token is random, since some engines give two tasks that are the same one result.
    """

    def __init__(self, work: Callable[..., List[R]], given: Tuple[object, ...]) -> None:
        self.work, self.given, self.token = work, given, secrets.token_bytes(16)
        self.made: List[R] = []

    def __call__(self) -> _Task[R]:
        done = _Task(self.work, ())
        done.made = self.work(*self.given)
        return done
