"""Batches: one method for each line of docs/FORMAT.md, under that line's word.

The methods refuse at once what the program would call a bad batch. Lines may be asked for in any order: they are
printed in that of the format.
"""

from __future__ import annotations

import secrets
from binascii import hexlify
from typing import Any, Dict, Iterable, Iterator, List, NoReturn, Optional, Sequence, Set, Tuple, TypeVar, Union

from .asked import (
    Added,
    AddedName,
    AnyAsked,
    AnyContext,
    Asked,
    Call,
    Context,
    ExportCall,
    Key,
    RetireCall,
    SealCall,
    UnsealAllCall,
    UnsealCall,
)
from .command import Runner, output_of
from .errors import OverLimit
from .once import Runs
from .reply import Reply
from .suites import LIMITS, MOST_MESSAGES, SEED_SIZE, SNTRUP761, TAG_SIZE, Aead, Kdf, Kem, Limits, Psk

C = TypeVar("C", bound=Call[Any])
# What one argument of a command holds on Linux.
MOST_SCHEDULE = 131_071
LINES_OF_PIECE = 256
LARGE_TEXT = 16_384
MOST_WORKERS = 16
KINDS = {"run": "run", "rehearse": "run", "live": "live"}  # of replies that are compared
MULTIPLIERS = ("plain", "karatsuba", "lanes")


def octets(data: bytes, most: int, what: str) -> bytes:
    """A field of bytes."""
    if not isinstance(data, (bytes, bytearray, memoryview)):
        raise TypeError(f"{what} is of type {type(data).__name__}, and bytes are wanted")
    digits = hexlify(data)
    if len(digits) > 2 * most:
        raise OverLimit(f"{what} has {len(digits) // 2:,} bytes, and at most {most:,} are allowed")
    return digits or b"-"


def number(value: int, least: int, most: int, what: str) -> bytes:
    """A field that is a number."""
    if not least <= value <= most:
        raise OverLimit(f"{what} is {value:,}, and has to be from {least:,} to {most:,}")
    return b"%d" % value


def suite(kdf: int, aead: int) -> bytes:
    """The fields KDF and AEAD; a ValueError where there is no such one."""
    return b"%d %d" % (Kdf(kdf), Aead(aead))


class Line:
    """A line of a lane. The number of an added context isn't known before all lanes are."""

    __slots__ = ("word", "context", "rest")

    def __init__(self, word: bytes, context: Optional[AnyContext], rest: bytes) -> None:
        self.word, self.context, self.rest = word, context, rest

    def text(self) -> bytes:
        name = b"" if self.context is None else b" " + self.context.name
        return b"%b%b%b\n" % (self.word, name, self.rest)


class Lines:
    """Lines that seal or open many messages: their digits are made when they are written."""

    __slots__ = ("fronts", "texts")

    def __init__(self, fronts: Sequence[bytes], texts: Sequence[bytes]) -> None:
        self.fronts, self.texts = fronts, texts  # one front is that of each line

    def pieces(self) -> Iterator[bytes]:
        if max(map(len, self.texts), default=0) > LARGE_TEXT:
            yield from self._fields()
            return
        one = self.fronts[0] if len(self.fronts) == 1 else None
        for at in range(0, len(self.texts), LINES_OF_PIECE):
            texts = self.texts[at : at + LINES_OF_PIECE]
            if one is not None:
                yield b"".join([one + (hexlify(text) or b"-") + b"\n" for text in texts])
            else:
                pairs = zip(self.fronts[at:], texts)
                yield b"".join([front + (hexlify(text) or b"-") + b"\n" for front, text in pairs])

    def _fields(self) -> Iterator[bytes]:
        """With no copy of the digits."""
        for place, text in enumerate(self.texts):
            yield self.fronts[place if len(self.fronts) > 1 else 0]
            yield hexlify(text) or b"-"
            yield b"\n"


class SeededBatch:
    """What all batches have: a version, a seed, keys, and that they may be closed."""

    def __init__(self, *, seed: Optional[bytes], version: int, limits: Limits) -> None:
        if version not in (1, 2):
            raise ValueError("a batch has version 1 or 2")
        if seed is not None and len(seed) != SEED_SIZE:
            raise ValueError(f"a seed has {SEED_SIZE} bytes, and this one has {len(seed)}")
        self.version, self.limits = version, limits
        self.keys: List[Key] = []
        self._key_lines: List[bytes] = []
        self._seed = seed
        self._runs = Runs()

    def keygen(self, kem: Kem = SNTRUP761) -> Key:
        """A new key pair: `reply[it]` has its `public` and `secret` bytes."""
        self._need_seed()
        return self._key(b"keygen", kem, None)

    def secret(self, data: bytes, kem: Kem = SNTRUP761) -> Key:
        """A key pair whose secret key is given."""
        return self._key(b"secret", kem, data)

    def peer(self, data: bytes, kem: Kem = SNTRUP761) -> Key:
        """Another's public key."""
        return self._key(b"peer", kem, data)

    def key(self, number: int) -> Key:
        """The key of this number, whether there is such a line or not."""
        return self.keys[number] if number < len(self.keys) else Key(self, number)

    def _key(self, word: bytes, kem: Kem, data: Optional[bytes]) -> Key:
        self._runs.need_open()
        if kem.suffix and self.version == 1:
            raise ValueError(f"keys of {kem.name} want a batch of version 2")
        if len(self.keys) == self.limits.keys:
            raise OverLimit(f"a batch has at most {self.limits.keys} keys")
        line = word + kem.suffix.encode()
        if data is not None:
            line += b" " + octets(data, self.limits.field, "a key")
        self._key_lines.append(line)
        self.keys.append(Key(self, len(self.keys), kem))
        return self.keys[-1]

    def _need_seed(self) -> None:
        self._runs.need_open()
        if self._seed is None:
            self._seed = secrets.token_bytes(SEED_SIZE)

    def _head(self) -> List[bytes]:
        seed = [] if self._seed is None else [b"rand " + hexlify(self._seed)]
        return [b"hpkebatch %d" % self.version, *seed, *self._key_lines]

    def _first_key_line(self) -> int:
        return 2 if self._seed is None else 3

    def _own(self, asked: Union[AnyAsked, AddedName]) -> None:
        if not isinstance(asked, (Asked, AddedName)):
            raise TypeError(f"what a line of this batch made is wanted, such as a key or a context, not {type(asked).__name__}")
        if asked.batch is not self:
            raise ValueError("this key, context or call is of another batch")

    def text(self) -> bytes:
        """The batch as the program reads it. It has the seed and the secrets in plain text."""
        return b"".join(self._within())

    def pieces(self) -> Iterator[bytes]:
        """The text, in pieces."""
        raise NotImplementedError

    def _within(self) -> Iterator[bytes]:
        """The pieces, as long as they are within the limit."""
        size = 0
        for piece in self.pieces():
            size += len(piece)
            if size > self.limits.input:
                raise OverLimit(f"the batch has more than {self.limits.input:,} bytes")
            yield piece

    def __reduce_ex__(self, protocol: object) -> NoReturn:
        raise TypeError("a batch can't be copied or sent to another process: both could run it, with one seed")


class Lane:
    """Calls that are answered in their order. Make one by `Batch.lane`."""

    def __init__(self, batch: Batch, number: int) -> None:
        self.batch, self.number = batch, number
        self.calls: List[Call[Any]] = []
        self.has_openings = False  # of several messages: these have answers of several lines
        self._lines: List[Union[Line, Lines]] = []
        self._sealed: Set[AnyContext] = set()  # the contexts that its calls seal on
        self._changed: Set[Union[Added, AddedName]] = set()  # and those that they add or retire

    def seal(self, context: AnyContext, plaintext: bytes, aad: bytes = b"") -> SealCall:
        """Seals a message under a sender's context (RFC 9180, 5.2)."""
        limits = self.batch.limits
        text = octets(plaintext, limits.message, "a message")
        self._put(b"seal", context, b" %b %b" % (octets(aad, limits.field, "associated data"), text))
        self._sealed.add(context)
        return self._keep(SealCall(self, len(self.calls)))

    def unseal(self, context: AnyContext, ciphertext: bytes, aad: bytes = b"") -> UnsealCall:
        """Opens a message under a recipient's context (RFC 9180, 5.2)."""
        self._put(b"unseal", context, self._pair(aad, ciphertext))
        return self._keep(UnsealCall(self, len(self.calls)))

    def seal_each(
        self, context: Context, plaintexts: Sequence[bytes], aads: Optional[Sequence[bytes]] = None
    ) -> List[SealCall]:
        """A `seal` for each message, made faster than one by one."""
        first = len(self.calls)
        self._put_each(b"seal", context, plaintexts, aads, self.batch.limits.message)
        self._sealed.add(context)
        calls = [SealCall(self, place) for place in range(first, first + len(plaintexts))]
        self.calls += calls
        return calls

    def unseal_each(
        self, context: Context, ciphertexts: Sequence[bytes], aads: Optional[Sequence[bytes]] = None
    ) -> List[UnsealCall]:
        """An `unseal` for each message, made faster than one by one."""
        first = len(self.calls)
        self._put_each(b"unseal", context, ciphertexts, aads, self.batch.limits.message + TAG_SIZE)
        calls = [UnsealCall(self, place) for place in range(first, first + len(ciphertexts))]
        self.calls += calls
        return calls

    def unsealall(self, context: AnyContext, pairs: Sequence[Tuple[bytes, bytes]]) -> UnsealAllCall:
        """Opens each pair of associated data and ciphertext, with nothing of other lanes between."""
        limits = self.batch.limits
        if not 1 <= len(pairs) <= limits.opening:
            raise OverLimit(f"an unsealall has from 1 to {limits.opening:,} messages, and this one has {len(pairs):,}")
        self._put(b"unsealall", context, b"".join([self._pair(aad, text) for aad, text in pairs]), len(pairs))
        self.has_openings = True
        return self._keep(UnsealAllCall(self, len(self.calls), len(pairs)))

    def export(self, context: AnyContext, label: bytes, size: int) -> ExportCall:
        """Exports `size` bytes for an exporter context (RFC 9180, 5.3)."""
        limits = self.batch.limits
        rest = b" %b %b" % (octets(label, limits.field, "an exporter context"), number(size, 0, 65_535, "size"))
        self._put(b"export", context, rest, 1, size)
        return self._keep(ExportCall(self, len(self.calls)))

    def add(
        self,
        role: str,
        kem_id: int,
        secret: bytes,
        info: bytes = b"",
        *,
        kdf: int = Kdf.HKDF_SHA256,
        aead: int = Aead.AES_256_GCM,
        psk: Optional[Psk] = None,
        mode: Optional[str] = None,
        limit: int = MOST_MESSAGES,
    ) -> Added:
        """Adds a context, with the fields of `Batch.share`: from here on calls find it. For `Batch.live` alone."""
        rest = self.batch._share(role, kem_id, secret, info, kdf, aead, psk, mode, limit)
        self.batch._add_context(is_added=True)
        self._put(b"add", None, rest)
        added = self._keep(Added(self, len(self.calls)))
        self._changed.add(added)
        self.batch._places = None
        return added

    def retire(self, context: Union[Added, AddedName]) -> RetireCall:
        """Retires an added context: from here on calls don't find it."""
        self._put(b"retire", context, b"")
        self._changed.add(context)
        return self._keep(RetireCall(self, len(self.calls)))

    def _pair(self, aad: bytes, ciphertext: bytes) -> bytes:
        limits = self.batch.limits
        text = octets(ciphertext, limits.message + TAG_SIZE, "a ciphertext")
        return b" %b %b" % (octets(aad, limits.field, "associated data"), text)

    def _put_each(
        self, word: bytes, context: Context, texts: Sequence[bytes], aads: Optional[Sequence[bytes]], most: int
    ) -> None:
        self.batch._own(context)
        fronts = [b"%b %b - " % (word, context.name)]
        if aads is not None:
            limit = self.batch.limits.field
            fronts = [b"%b %b %b " % (word, context.name, octets(aad, limit, "associated data")) for aad in aads]
            if len(fronts) != len(texts):
                raise ValueError(f"there are {len(texts):,} messages and {len(fronts):,} aads")
        # Bytes stay as they are; of what may change, a copy is kept.
        kept = [text if type(text) is bytes else memoryview(text).tobytes() for text in texts]
        if max(map(len, kept), default=0) > most:
            raise OverLimit(f"a message has more than {most:,} bytes")
        self.batch._count(len(kept), 0)
        self._lines.append(Lines(fronts, kept))

    def _put(self, word: bytes, context: Optional[AnyContext], rest: bytes, items: int = 1, exported: int = 0) -> None:
        if context is not None:
            self.batch._own(context)
        self.batch._count(items, exported)
        self._lines.append(Line(word, context, rest))
        if isinstance(context, (Added, AddedName)):
            self.batch._for_live()

    def _keep(self, call: C) -> C:
        self.calls.append(call)
        return call


class Batch(SeededBatch):
    """A batch of keys, contexts and lanes of calls.

    Without `seed` it draws a fresh one where a line needs one; a seed that is given twice gives the same keys and
    encapsulations twice. A batch that seals is run once, by `run` or `live`:
    a second run may answer the lanes in another order, and then one key and nonce seal two messages. `rehearse`
    may repeat one schedule. `for_tests` lifts this, for batches whose secrets protect nothing.
    """

    def __init__(
        self, *, seed: Optional[bytes] = None, version: int = 2, limits: Limits = LIMITS, for_tests: bool = False
    ) -> None:
        super().__init__(seed=seed, version=version, limits=limits)
        self.contexts: List[Context] = []
        self.lanes: List[Lane] = []
        self.adds_contexts = False  # or names an added one: `live` alone takes it
        self._context_lines: List[bytes] = []
        self._seals, self._for_tests = False, for_tests
        self._added = self._items = self._exported = 0
        self._places: Optional[Dict[Added, int]] = None

    def __repr__(self) -> str:
        counts = (len(self.keys), "keys"), (len(self.contexts), "contexts"), (len(self.lanes), "lanes")
        held = ", ".join(f"{count} {what}" for count, what in (*counts, (self._items, "items")))
        return f"<Batch of version {self.version}: {held}>"

    # ---- contexts

    def share(
        self,
        role: str,
        kem_id: int,
        secret: bytes,
        info: bytes = b"",
        *,
        kdf: int = Kdf.HKDF_SHA256,
        aead: int = Aead.AES_256_GCM,
        psk: Optional[Psk] = None,
        mode: Optional[str] = None,
        limit: int = MOST_MESSAGES,
    ) -> Context:
        """A context whose shared secret is given (RFC 9180, 5.1); `role` is "send" or "recv".

        It seals from number 0 on: two batches with one secret, suite, info and psk use the same keys and nonces.
        """
        return self._context(b"share" + self._share(role, kem_id, secret, info, kdf, aead, psk, mode, limit))

    def send(
        self,
        key: Key,
        info: bytes = b"",
        *,
        kdf: int = Kdf.HKDF_SHA256,
        aead: int = Aead.AES_256_GCM,
        psk: Optional[Psk] = None,
        mode: Optional[str] = None,
        limit: int = MOST_MESSAGES,
    ) -> Context:
        """A sender's context to a public key (RFC 9180, 5.1.1, 5.1.2): `reply[it].enc` is for the recipient."""
        self._own(key)
        self._need_seed()
        rest = self._rest(info, psk, mode, limit)
        self._seals = True
        return self._context(b"send %b %d%b" % (suite(kdf, aead), key.number, rest))

    def recv(
        self,
        key: Key,
        enc: Union[bytes, Context],
        info: bytes = b"",
        *,
        kdf: int = Kdf.HKDF_SHA256,
        aead: int = Aead.AES_256_GCM,
        psk: Optional[Psk] = None,
        mode: Optional[str] = None,
        limit: int = MOST_MESSAGES,
    ) -> Context:
        """A recipient's context for an encapsulation, or for that of a `send` of this batch."""
        self._own(key)
        if isinstance(enc, Context):
            self._own(enc)
            given = b"@" + enc.name
        else:
            given = octets(enc, self.limits.field, "an encapsulation")
        rest = self._rest(info, psk, mode, limit)
        return self._context(b"recv %b %d %b%b" % (suite(kdf, aead), key.number, given, rest))

    def context(self, number: int) -> Context:
        """The context of this number, whether there is such a line or not."""
        return self.contexts[number] if number < len(self.contexts) else Context(self, number)

    def added(self, number: int) -> AddedName:
        """The context of the `add` line of this number, whether there is such a line or not."""
        return AddedName(self, number)

    def lane(self) -> Lane:
        """A lane. The calls of one lane are answered in their order; of two lanes, in any order."""
        self._runs.need_open()
        if len(self.lanes) == self.limits.lanes:
            raise OverLimit(f"a batch has at most {self.limits.lanes} lanes")
        self.lanes.append(Lane(self, len(self.lanes)))
        return self.lanes[-1]

    def _share(
        self,
        role: str,
        kem_id: int,
        secret: bytes,
        info: bytes,
        kdf: int,
        aead: int,
        psk: Optional[Psk],
        mode: Optional[str],
        limit: int,
    ) -> bytes:
        if role not in ("send", "recv"):
            raise ValueError('a role is "send" or "recv"')
        self._seals |= role == "send"
        kem = number(kem_id, 0, 65_535, "a KEM's id")
        given = octets(secret, self.limits.field, "a shared secret")
        head = b" %b %b %b %b" % (role.encode(), kem, suite(kdf, aead), given)
        return head + self._rest(info, psk, mode, limit)

    def _rest(self, info: bytes, psk: Optional[Psk], mode: Optional[str], limit: int) -> bytes:
        mode = mode or ("base" if psk is None else "psk")
        if mode not in ("base", "psk"):
            raise ValueError('a mode is "base" or "psk"')
        pieces = octets(info, self.limits.field, "info")
        for what, data in (("a psk", psk.secret if psk else b""), ("a psk's id", psk.id if psk else b"")):
            pieces += b" " + octets(data, self.limits.field, what)
        return b" %b %b %b" % (mode.encode(), pieces, number(limit, 1, MOST_MESSAGES, "LIMIT"))

    def _context(self, line: bytes) -> Context:
        self._add_context()
        self._context_lines.append(line)
        self.contexts.append(Context(self, len(self.contexts)))
        return self.contexts[-1]

    def _add_context(self, is_added: bool = False) -> None:
        self._runs.need_open()
        if len(self.contexts) + self._added == self.limits.contexts:
            raise OverLimit(f"a batch has at most {self.limits.contexts} contexts")
        if is_added:
            self._for_live()
            self._added += 1

    def _for_live(self) -> None:
        if self.version != 2:
            raise ValueError("lanes that add contexts want a batch of version 2")
        self.adds_contexts = True

    def _count(self, items: int, exported: int) -> None:
        self._runs.need_open()
        if self._items + items > self.limits.items:
            raise OverLimit(f"a batch has at most {self.limits.items:,} items")
        if self._exported + exported > self.limits.exported:
            raise OverLimit(f"a batch exports at most {self.limits.exported:,} bytes")
        self._items += items
        self._exported += exported

    # ---- its text

    def pieces(self) -> Iterator[bytes]:
        """The text, in pieces."""
        yield b"\n".join([*self._head(), *self._context_lines, b""])
        for lane in self.lanes:
            yield b"lane\n"
            for line in lane._lines:
                yield from line.pieces() if isinstance(line, Lines) else (line.text(),)
        yield b"end\n"

    def place_of(self, added: Added) -> int:
        """The number of an `add` line in the order of the text."""
        if self._places is None:
            calls = (call for lane in self.lanes for call in lane.calls)
            self._places = {it: place for place, it in enumerate(it for it in calls if isinstance(it, Added))}
        return self._places[added]

    def asked_at(self, line: int) -> Optional[AnyAsked]:
        """What a line of the text was made for; None for a line that asks for nothing."""
        place = line - self._first_key_line()
        set_up: List[AnyAsked] = [*self.keys, *self.contexts]
        if 0 <= place < len(set_up):
            return set_up[place]
        place -= len(set_up)
        for lane in self.lanes:
            if 1 <= place <= len(lane.calls):  # behind its line `lane`
                return lane.calls[place - 1]
            place -= 1 + len(lane.calls)
        return None

    @property
    def may_run_again(self) -> bool:
        """Whether every run answers each seal alike, so that a second one gives no number to another message.

        So it is where no two lanes seal on one context, and no lane seals on a context that another adds or retires.
        """
        sealing: Dict[bytes, Lane] = {}
        for lane in self.lanes:
            for context in lane._sealed:
                if sealing.setdefault(context.name, lane) is not lane:
                    return False
        return all(sealing.get(it.name, lane) is lane for lane in self.lanes for it in lane._changed)

    # ---- running it

    def run(
        self, *, workers: Optional[int] = None, mult: Optional[str] = None, runner: Optional[Runner] = None
    ) -> Reply:
        """The reply, by as many threads as `workers` says (the program's default is 4)."""
        if self.adds_contexts:
            raise ValueError("lanes of this batch add contexts or name added ones: use `live`")
        return self._answered(["run", *options(workers, mult)], runner)

    def live(
        self, *, workers: Optional[int] = None, mult: Optional[str] = None, runner: Optional[Runner] = None
    ) -> Reply:
        """The reply to a batch of version 2 whose lanes may add contexts and retire them."""
        if self.version != 2:
            raise ValueError("`live` wants a batch of version 2")
        return self._answered(["live", *options(workers, mult)], runner)

    def rehearse(self, schedule: Iterable[int] = (), *, runner: Optional[Runner] = None) -> Reply:
        """The reply where the lanes take their steps in this order: an exact function of batch and schedule."""
        if self.adds_contexts:
            raise ValueError("lanes of this batch add contexts or name added ones: only `live` answers it")
        word = ",".join(map(str, schedule)) or "-"
        if len(word) > MOST_SCHEDULE:
            raise OverLimit(f"a schedule's word has at most {MOST_SCHEDULE:,} bytes, and this one has {len(word):,}")
        return self._answered(["rehearse", word], runner)

    def _answered(self, words: Sequence[str], runner: Optional[Runner]) -> Reply:
        how = " ".join(words)
        with self._runs.run(how, lambda first: self._may_follow(first, how)):
            output = output_of(runner, words, self._within(), self.asked_at)
        return Reply(self, output, is_live=words[0] == "live")

    def _may_follow(self, first: str, how: str) -> bool:
        """Whether this run may come after that first one: then no number seals another message than in the first."""
        if not self._seals or self._for_tests or (how == first and how.startswith("rehearse ")):
            return True
        # What is proved is said of two replies of `run` or `rehearse`, and of two of `live`. Of a forked process the first
        # run isn't known: lines may have been added since.
        return self.may_run_again and KINDS.get(first.split(" ")[0]) == KINDS[how.split(" ")[0]]


def options(workers: Optional[int], mult: Optional[str]) -> List[str]:
    given = [] if workers is None else ["--workers", number(workers, 1, MOST_WORKERS, "workers").decode()]
    if mult not in (None, *MULTIPLIERS):
        raise ValueError(f"mult is one of {', '.join(MULTIPLIERS)}")
    return given if mult is None else [*given, "--mult", mult]
