"""Contexts in this process (RFC 9180, 5.2 and 5.3): a sender seals message by message, and its recipient opens them.

    with hpkebatch.Sender(bob.public, info=b"order 7") as sender:
        enc, first = sender.enc, sender.seal(b"one")
    with hpkebatch.Recipient(enc, bob.secret, info=b"order 7") as recipient:
        recipient.open(first)

The library for C does the work; `find_library` says how it is found. A context counts its messages: none is left out, and
none comes twice. So it isn't copied, pickled, or used by a forked process, and it serves one call at a time.
"""

from __future__ import annotations

import sys
import threading
import weakref
from typing import TYPE_CHECKING, ContextManager, Iterable, List, NoReturn, Optional, Tuple, Type, TypeVar, Union

from . import arguments
from .errors import ContextEnded, KeyRefused, LimitReached, OpenFailed, OutOfMemory, Refused
from .keys import KeyPair, PublicKey, SecretKey, public_key, secret_key
from .once import Here
from .shared_library import (
    BASE,
    PSK,
    RECIPIENT,
    SENDER,
    Context,
    Library,
    Parameters,
    Seed,
    Status,
    fresh_seed,
    need_library,
    wipe,
)
from .suites import MOST_MESSAGES, SEED_SIZE, SNTRUP761, TAG_SIZE, Aead, Kdf, Kem, Psk

E = TypeVar("E", bound="End")
MOST = sys.maxsize  # bytes: what a text has is limited by memory alone
TRIES = 100


def octets(given: bytes, what: str) -> bytes:
    return given if type(given) is bytes else arguments.octets(given, what, MOST)


def parameters(info: bytes, psk: Optional[Psk], kdf: int, aead: int, limit: int) -> Parameters:
    info, psk = octets(info, "info"), arguments.psk(psk)
    if aead not in list(Aead):
        raise ValueError(f"aead is {aead!r}, and has to be one of {', '.join(it.name for it in Aead)}")
    if not isinstance(limit, int) or not 1 <= limit <= MOST_MESSAGES:
        raise ValueError(f"limit is {limit!r}, and has to be from 1 to {MOST_MESSAGES:,}")
    mode, secret, name = (BASE, b"", b"") if psk is None else (PSK, psk.secret, psk.id)
    return Parameters(mode, arguments.kdf(kdf), aead, limit, info, secret, name)


def fault_of(status: int, what: str) -> Exception:
    """The exception that a status is, but for those on the tags and limits of a context."""
    if status == Status.NO_MEMORY:
        return OutOfMemory(status, "out of memory")
    if status == Status.FORM:
        return KeyRefused()
    if status == Status.WRONG_USAGE:
        return ValueError(f"{what} has more bytes than HPKE allows")
    return Refused(Status(status).name.lower() if status in list(Status) else f"status {status}", what)


class End:
    """What a sender and a recipient have in common."""

    __slots__ = ("enc", "_library", "_context", "_lock", "_mark", "_wipe", "__weakref__")
    enc: bytes
    _library: Library
    _context: Context
    _why_no_copy = "a context isn't copied or pickled"
    _why_no_other = ""

    if not TYPE_CHECKING:  # which tells it before the program runs

        def __getattr__(self, name: str) -> NoReturn:
            is_other = name in ("seal", "seal_many", "open", "open_many")
            raise AttributeError(self._why_no_other if is_other else f"a {type(self).__name__} has no attribute {name!r}")

    def _begin(self, library: Library, context: Context, enc: bytes) -> None:
        # (a lock that a signal handler's own call may take too: such a call comes before or behind the library's, never in it)
        self._lock, self._mark = threading.RLock(), Here.mark()
        self._library, self._context, self.enc = library, context, enc
        self._wipe = weakref.finalize(self, wipe, context)

    @classmethod
    def _shared(cls: Type[E], role: int, kem: int, shared_secret: bytes, given: Parameters) -> E:
        if not isinstance(kem, int) or not 0 <= kem <= 0xFFFF:
            raise ValueError(f"kem is {kem!r}, and has to be an id of RFC 9180, from 0 to 65,535")
        library = need_library()
        status, context = library.shared(role, kem, octets(shared_secret, "shared_secret"), given)
        if status != Status.DONE:
            raise fault_of(status, "an argument")
        end = cls.__new__(cls)
        end._begin(library, context, b"")
        return end

    def _here(self) -> ContextManager[object]:
        """The lock, where this process may take it."""
        if self._mark != Here.mark():
            raise ContextEnded(
                "this context is of the process that this one was forked from, and both would use one nonce: make another here"
            )
        return self._lock

    def _live(self) -> Context:
        if not self._wipe.alive:
            raise ContextEnded("this context was closed")
        return self._context

    @property
    def number(self) -> int:
        """The sequence number of the next message."""
        with self._here():
            return self._live().number

    def export(self, exporter_context: bytes, size: int) -> bytes:
        """A secret of `size` bytes that both ends share (RFC 9180, 5.3)."""
        exporter_context = octets(exporter_context, "exporter_context")
        with self._here():
            context = self._live()
            arguments.test_export(size, context.kdf, context.aead)
            status, secret = self._library.export(context, exporter_context, size)
        if status != Status.DONE:
            raise fault_of(status, "exporter_context")
        return secret

    def close(self) -> None:
        """Ends the context: its memory is wiped, and each later call is refused. Leaving `with` does it too, and so does
        dropping the last reference."""
        if self._mark == Here.mark():
            with self._lock:
                self._wipe()
        else:
            self._wipe()

    def __enter__(self: E) -> E:
        return self

    def __exit__(self, *fault: object) -> None:
        self.close()

    def __repr__(self) -> str:
        name = type(self).__name__
        return f"<{name}: message {self._context.number} is next>" if self._wipe.alive else f"<{name}: closed>"

    def __copy__(self) -> NoReturn:
        raise TypeError(self._why_no_copy)

    def __deepcopy__(self, memo: object) -> NoReturn:
        raise TypeError(self._why_no_copy)

    def __reduce__(self) -> NoReturn:
        raise TypeError(self._why_no_copy)

    def __reduce_ex__(self, protocol: object) -> NoReturn:
        raise TypeError(self._why_no_copy)


class Sender(End):
    """Seals messages to the public key `to`. The recipient wants `enc`, the encapsulation, and then the messages, in the
    order in which they were sealed.

    `info`, `psk`, `kdf` and `aead` are the same at both ends. `limit` is how many messages the context seals at most.
    """

    __slots__ = ()
    _why_no_copy = "a sender isn't copied or pickled: two copies would seal two messages with one key and nonce"
    _why_no_other = "a Sender seals, and doesn't open: the way back is another context, of the other's Sender"

    def __init__(
        self,
        to: Union[PublicKey, bytes],
        *,
        info: bytes = b"",
        psk: Optional[Psk] = None,
        kdf: Kdf = Kdf.HKDF_SHA256,
        aead: Aead = Aead.AES_256_GCM,
        limit: int = MOST_MESSAGES,
    ) -> None:
        key, given = public_key(to, "to"), parameters(info, psk, kdf, aead, limit)
        with fresh_seed() as seed:
            self._start(key, seed, 0, given)

    def _start(self, to: PublicKey, seed: Seed, stream: int, given: Parameters) -> None:
        library = need_library()
        status, context, enc = library.sender(to.kem, seed, stream, to.data, given)
        if status != Status.DONE:
            raise fault_of(status, "an argument")
        self._begin(library, context, enc)

    @classmethod
    def from_shared_secret(
        cls,
        shared_secret: bytes,
        kem: int,
        *,
        info: bytes = b"",
        psk: Optional[Psk] = None,
        kdf: Kdf = Kdf.HKDF_SHA256,
        aead: Aead = Aead.AES_256_GCM,
        limit: int = MOST_MESSAGES,
    ) -> Sender:
        """The sender's end of a shared secret that another KEM gave, whose id (RFC 9180, 7.1) is `kem`; its `enc` is empty.
        Use a shared secret for one sender, and once: two that have it seal with one key and nonce."""
        return cls._shared(SENDER, kem, shared_secret, parameters(info, psk, kdf, aead, limit))

    def seal(self, text: bytes, aad: bytes = b"") -> bytes:
        """The ciphertext of the next message, 16 bytes longer than it. `aad` is not sent: the recipient gives it too."""
        text, aad = octets(text, "text"), octets(aad, "aad")
        with self._here():
            status, ct = self._library.seal(self._live(), aad, text)
        if status != Status.DONE:
            raise _not_sealed(status, "the message")
        return ct

    def seal_many(self, texts: Iterable[bytes], aads: Optional[Iterable[bytes]] = None) -> List[bytes]:
        """The ciphertexts of the next messages: all, or none where the limit is less. One such call is faster than many
        of `seal`."""
        listed, of_each = _listed(texts, aads, "text")
        with self._here():
            status, cts = self._library.seal_all(self._live(), of_each, listed)
        if status != Status.DONE:
            raise _not_sealed(status, "a message of the list")
        return cts


class Recipient(End):
    """Opens what the sender with this `enc` sealed to the public key of `key`, in the order in which it was sealed.

    What doesn't open leaves the context as it was. If `enc` is another's, nothing opens.
    """

    __slots__ = ()
    _why_no_copy = "a recipient isn't copied or pickled: two copies would use one nonce twice, and open a message twice"
    _why_no_other = "a Recipient opens, and doesn't seal: the way back is another context, of a Sender to the other's key"

    def __init__(
        self,
        enc: bytes,
        key: Union[SecretKey, bytes],
        *,
        info: bytes = b"",
        psk: Optional[Psk] = None,
        kdf: Kdf = Kdf.HKDF_SHA256,
        aead: Aead = Aead.AES_256_GCM,
        limit: int = MOST_MESSAGES,
    ) -> None:
        own = secret_key(key, "key")
        enc, given = arguments.encapsulation(enc, own.kem), parameters(info, psk, kdf, aead, limit)
        library = need_library()
        status, context = library.recipient(own.kem, enc, own.data, given)
        if status != Status.DONE:
            raise fault_of(status, "an argument")
        self._begin(library, context, enc)

    @classmethod
    def from_shared_secret(
        cls,
        shared_secret: bytes,
        kem: int,
        *,
        info: bytes = b"",
        psk: Optional[Psk] = None,
        kdf: Kdf = Kdf.HKDF_SHA256,
        aead: Aead = Aead.AES_256_GCM,
        limit: int = MOST_MESSAGES,
    ) -> Recipient:
        """The recipient's end of a shared secret that another KEM gave, whose id (RFC 9180, 7.1) is `kem`."""
        return cls._shared(RECIPIENT, kem, shared_secret, parameters(info, psk, kdf, aead, limit))

    def open(self, ct: bytes, aad: bytes = b"") -> bytes:
        """The text of the next message. OpenFailed where it isn't what the sender sealed next, or not with this `aad`."""
        ct, aad = octets(ct, "ct"), octets(aad, "aad")
        with self._here():
            context = self._live()
            number = context.number
            status, text = self._library.open(context, aad, ct)
        if status != Status.DONE:
            raise _not_opened(status, ct, "the message", number)
        return text

    def open_many(self, cts: Iterable[bytes], aads: Optional[Iterable[bytes]] = None) -> List[bytes]:
        """The texts of the next messages: all, or none. OpenFailed tells the number of the first that doesn't open."""
        listed, of_each = _listed(cts, aads, "ct")
        with self._here():
            context = self._live()
            status, texts = self._library.open_all(context, of_each, listed)
            if status == Status.DONE:
                return texts
            number = context.number
            place, why = self._first_fault(context, listed, of_each)
        if why == Status.DONE:
            raise _not_opened(status, b"", "a message of the list", number)
        raise _not_opened(why, listed[place], f"message {place} of the list", number + place)

    def _first_fault(self, context: Context, cts: List[bytes], aads: List[bytes]) -> Tuple[int, int]:
        """The place of the first message that doesn't open, and its status; tried on a copy, which moves on by itself."""
        copy = Context.from_buffer_copy(context)
        try:
            for place, (ct, aad) in enumerate(zip(cts, aads)):
                status, _ = self._library.open(copy, aad, ct)
                if status != Status.DONE:
                    return place, status
        finally:
            wipe(copy)
        return len(cts), Status.DONE


def _listed(texts: Iterable[bytes], aads: Optional[Iterable[bytes]], what: str) -> Tuple[List[bytes], List[bytes]]:
    listed = arguments.octets_of_each(texts, what, MOST)
    of_each = [b""] * len(listed) if aads is None else arguments.octets_of_each(aads, "aad", MOST)
    if len(of_each) != len(listed):
        raise ValueError(f"there are {len(listed):,} messages and {len(of_each):,} aads")
    return listed, of_each


def _not_sealed(status: int, what: str) -> Exception:
    if status == Status.LIMIT:
        return LimitReached(what)
    if status == Status.NOCIPHER:
        return Refused("nocipher", f"{what}, on an export-only context,")
    return fault_of(status, what)


def _not_opened(status: int, ct: bytes, what: str, number: int) -> Exception:
    is_short = status == Status.WRONG_USAGE and len(ct) < TAG_SIZE
    return OpenFailed(what, number) if status == Status.FAILED or is_short else _not_sealed(status, what)


# ---- keys


def key_pair(kem: Kem = SNTRUP761) -> KeyPair:
    """A new pair of keys."""
    for _ in range(TRIES):
        with fresh_seed() as seed:
            status, pair = key_pair_of(kem, seed, 0)
        if pair is not None:
            return pair
    raise fault_of(status, "a key")


def key_pair_of(kem: Kem, seed: Seed, stream: int) -> Tuple[int, Optional[KeyPair]]:
    """The pair that a seed gives. Where its stream gives none the status says why, and another seed is to be drawn."""
    status, public, secret = need_library().keygen(kem, seed, stream)
    if status == Status.DONE:
        return status, KeyPair(PublicKey(public), SecretKey(secret))
    if status in (Status.EXHAUSTED, Status.NOINVERSE):
        return status, None
    raise fault_of(status, "a key")


# ---- for tests


def sender_of_seed(to: PublicKey, seed: bytes, stream: int, given: Parameters) -> Sender:
    """A sender that is the same each time: two of them seal with one key and nonce. For tests alone."""
    if len(seed) != SEED_SIZE:
        raise ValueError(f"a seed has {SEED_SIZE} bytes, and this one has {len(seed)}")
    sender = Sender.__new__(Sender)
    sender._start(to, seed, stream, given)
    return sender
