"""The library for C of hpkebatch (include/hpkebatch.h), called in this process by ctypes: how it is found, and its calls.

Nothing is looked for, and nothing is built, before the first call that wants it.
"""

from __future__ import annotations

import ctypes
import errno
import os
import platform
import subprocess
import threading
from contextlib import contextmanager
from ctypes import POINTER, c_char, c_char_p, c_size_t, c_uint8, c_uint16, c_uint32, c_uint64
from enum import IntEnum
from typing import Any, Callable, Dict, Iterator, List, NamedTuple, Optional, Sequence, Tuple, Union

from .command import HERE, REPOSITORY
from .errors import LibraryNotFound
from .suites import KEMS, SEED_SIZE, TAG_SIZE, Kem

NAME = "libhpkebatch.so.0"
VARIABLE = "HPKEBATCH_LIBRARY"
DEBIAN = os.path.join("python3", "dist-packages", "hpkebatch")
# What the library's code takes for granted of a processor: x86-64-v2, as Linux names it.
FLAGS = {"cx16", "lahf_lm", "popcnt", "pni", "sse4_1", "sse4_2", "ssse3"}


# ---- what crosses


class Status(IntEnum):
    """What a call answers, by the names and numbers of the header."""

    DONE = 0
    WRONG_USAGE = 2
    NO_MEMORY = 6
    ROLE = 8
    NOCIPHER = 9
    LIMIT = 10
    FAILED = 11
    EXPORTSIZE = 12
    EXHAUSTED = 13
    NOINVERSE = 14
    FORM = 15
    PSKPAIR = 16
    PSKEXTRA = 17
    PSKMISSING = 18


SENDER, RECIPIENT = 0, 1
BASE, PSK = 0, 1


class Context(ctypes.Structure):
    """`hpkebatch_context`. The caller holds it, and gives it to one call at a time."""

    _fields_ = [
        ("number", c_uint64),
        ("limit", c_uint64),
        ("role", c_uint16),
        ("kem", c_uint16),
        ("kdf", c_uint16),
        ("aead", c_uint16),
        ("base_nonce", c_uint8 * 12),
        ("key", c_uint8 * 32),
        ("exporter_secret", c_uint8 * 64),
    ]
    number: int
    limit: int
    aead: int


class Octets(ctypes.Structure):
    """`hpkebatch_bytes`."""

    _fields_ = [("at", c_char_p), ("size", c_size_t)]


class Parameters(NamedTuple):
    """What both ends agree in; psk and psk_id are empty in mode base."""

    mode: int
    kdf: int
    aead: int
    limit: int
    info: bytes
    psk: bytes
    psk_id: bytes

    def fields(self) -> Tuple[Union[int, bytes], ...]:
        """As the header's calls of set-up take them."""
        info, psk, psk_id = self.info, self.psk, self.psk_id
        return (self.mode, self.kdf, self.aead, self.limit, info, len(info), psk, len(psk), psk_id, len(psk_id))

    def __repr__(self) -> str:
        return "<Parameters>"


_system = ctypes.CDLL(None, use_errno=True)
Seed = Union[bytes, "ctypes.Array[c_char]"]
HELD = POINTER(Context)
TEXT = (c_char_p, c_size_t)
TEXTS = (POINTER(Octets), c_size_t)
PARAMETERS = (c_uint16, c_uint16, c_uint16, c_uint64, *TEXT, *TEXT, *TEXT)


def room(size: int) -> ctypes.Array[c_char]:
    """Memory that a call writes to; zero bytes at first."""
    return (c_char * size)()


def wipe(held: Union[Context, ctypes.Array[c_char]]) -> None:
    """Writes zero bytes over memory that had a secret. A wiped context names no KDF, so each call refuses it."""
    ctypes.memset(ctypes.addressof(held), 0, ctypes.sizeof(held))


def taken(held: ctypes.Array[c_char]) -> bytes:
    """A secret that a call wrote; its memory is wiped."""
    secret: bytes = held.raw
    wipe(held)
    return secret


@contextmanager
def fresh_seed() -> Iterator[Seed]:
    """Random bytes of the system, wiped behind the call that takes them."""
    seed = room(SEED_SIZE)
    try:
        draw(seed)
        yield seed
    finally:
        wipe(seed)


def draw(seed: ctypes.Array[c_char]) -> None:
    """Fills a seed, with no copy of it in Python's own memory."""
    while _system.getrandom(seed, c_size_t(SEED_SIZE), 0) != SEED_SIZE:
        if ctypes.get_errno() != errno.EINTR:
            raise OSError(ctypes.get_errno(), "the system gives no random bytes")


# ---- the calls


class Library:
    """A library that was loaded. Each call gives its status, and then what it made: nothing of use where that isn't 0."""

    def __init__(self, path: str) -> None:
        self.path = path
        self._loaded = ctypes.CDLL(path)
        number = {kem: kem.name[len("sntrup") :] for kem in KEMS}
        self._keygen = {kem: self._call(f"sntrup{number[kem]}_keygen", c_char_p, c_uint64, c_char_p, c_char_p) for kem in KEMS}
        to_begin = (HELD, c_char_p, c_char_p, c_uint64, c_char_p, *PARAMETERS)
        self._sender = {kem: self._call(f"sntrup{number[kem]}_sender", *to_begin) for kem in KEMS}
        to_follow = (HELD, c_char_p, c_char_p, *PARAMETERS)
        self._recipient = {kem: self._call(f"sntrup{number[kem]}_recipient", *to_follow) for kem in KEMS}
        self._shared = self._call(
            "context_shared", HELD, c_uint16, c_uint16, c_uint16, c_uint16, c_uint16, c_uint64, *TEXT, *TEXT, *TEXT, *TEXT
        )
        self._seal = self._call("context_seal", HELD, *TEXT, *TEXT, *TEXT)
        self._open = self._call("context_open", HELD, *TEXT, *TEXT, *TEXT)
        self._export = self._call("context_export", HELD, *TEXT, *TEXT)
        self._seal_all = self._call("context_seal_all", HELD, *TEXTS, *TEXTS, *TEXT)
        self._open_all = self._call("context_open_all", HELD, *TEXTS, *TEXTS, *TEXT)

    def _call(self, name: str, *types: Any) -> Callable[..., int]:
        call = getattr(self._loaded, f"hpkebatch_{name}")
        call.argtypes, call.restype = types, c_uint32
        made: Callable[..., int] = call
        return made

    def keygen(self, kem: Kem, seed: Seed, stream: int) -> Tuple[int, bytes, bytes]:
        """A pair of keys."""
        public, secret = room(kem.public_size), room(kem.secret_size)
        status = self._keygen[kem](seed, stream, public, secret)
        return status, public.raw, taken(secret)

    def sender(self, kem: Kem, seed: Seed, stream: int, public: bytes, given: Parameters) -> Tuple[int, Context, bytes]:
        """A sender's context, and its encapsulation."""
        context, enc = Context(), room(kem.enc_size)
        status = self._sender[kem](context, enc, seed, stream, public, *given.fields())
        return status, context, enc.raw

    def recipient(self, kem: Kem, enc: bytes, secret: bytes, given: Parameters) -> Tuple[int, Context]:
        context = Context()
        return self._recipient[kem](context, enc, secret, *given.fields()), context

    def shared(self, role: int, kem: int, shared_secret: bytes, given: Parameters) -> Tuple[int, Context]:
        """A context of a shared secret that some KEM gave."""
        context = Context()
        mode, kdf, aead, limit, *texts = given.fields()
        suite = (role, mode, kem, kdf, aead, limit)
        return self._shared(context, *suite, shared_secret, len(shared_secret), *texts), context

    def seal(self, context: Context, aad: bytes, text: bytes) -> Tuple[int, bytes]:
        size = len(text) + TAG_SIZE
        out = room(size)
        status = self._seal(context, aad, len(aad), text, len(text), out, size)
        return status, out.raw

    def open(self, context: Context, aad: bytes, ct: bytes) -> Tuple[int, bytes]:
        size = max(0, len(ct) - TAG_SIZE)
        out = room(size)
        status = self._open(context, aad, len(aad), ct, len(ct), out, size)
        return status, taken(out)

    def export(self, context: Context, exporter_context: bytes, size: int) -> Tuple[int, bytes]:
        out = room(size)
        status = self._export(context, exporter_context, len(exporter_context), out, size)
        return status, taken(out)

    def seal_all(self, context: Context, aads: Sequence[bytes], texts: Sequence[bytes]) -> Tuple[int, List[bytes]]:
        """All ciphertexts, or none."""
        return _each(self._seal_all, context, aads, texts, [len(it) + TAG_SIZE for it in texts])

    def open_all(self, context: Context, aads: Sequence[bytes], cts: Sequence[bytes]) -> Tuple[int, List[bytes]]:
        """All texts, or none."""
        return _each(self._open_all, context, aads, cts, [max(0, len(it) - TAG_SIZE) for it in cts])


def _each(
    call: Callable[..., int], context: Context, aads: Sequence[bytes], texts: Sequence[bytes], sizes: Sequence[int]
) -> Tuple[int, List[bytes]]:
    out = room(sum(sizes))
    status = call(context, _octets(aads), len(aads), _octets(texts), len(texts), out, len(out))
    made: List[bytes] = []
    if status == Status.DONE:
        view, at = memoryview(out).cast("B"), 0
        for size in sizes:
            made.append(view[at : at + size].tobytes())
            at += size
    wipe(out)
    return status, made


def _octets(texts: Sequence[bytes]) -> ctypes.Array[Octets]:
    pairs: List[Any] = [(it, len(it)) for it in texts]
    return (Octets * len(texts))(*pairs)


# ---- how it is found


def packed() -> Optional[str]:
    """The library of the package that was installed: the wheel's, that of the Debian package, or the archive's."""
    places = [os.path.join(HERE, "library", NAME), os.path.join(REPOSITORY, "lib", NAME)]
    if HERE.endswith(os.sep + DEBIAN):
        places.append(os.path.join(HERE[: -len(DEBIAN)], "x86_64-linux-gnu", NAME))
    return next((it for it in places if os.path.isfile(it)), None)


def made() -> Tuple[Optional[str], str]:
    """The library of the clone that this package stands in, made of its dist where that has changed; or why not."""
    script = os.path.join(os.path.dirname(os.path.realpath(HERE)), "provide_library")
    if not os.path.isfile(script):
        return None, f"this package has no {NAME}"
    done = subprocess.run(["sh", script], stdin=subprocess.DEVNULL, stdout=subprocess.PIPE, stderr=subprocess.PIPE, check=False)
    if done.returncode:
        return None, done.stderr.decode("utf-8", "replace").strip() or f"{script} failed"
    return os.fsdecode(done.stdout.rstrip(b"\n")), ""


def unfit() -> Optional[str]:
    """Why the library can't run here. Where the system doesn't say what its processor has, this can't be known."""
    if platform.machine() != "x86_64":
        return f"it is for x86-64, and not for {platform.machine()}"
    try:
        with open("/proc/cpuinfo", encoding="ascii", errors="replace") as file:
            flags = next((set(line.split()) for line in file if line.startswith("flags")), FLAGS)
    except OSError:
        flags = FLAGS
    return None if FLAGS <= flags else "it wants a processor with x86-64-v2"


def _load(named: Optional[str]) -> Union[Library, str]:
    """The library, or why there is none."""
    path, why = (os.path.abspath(named), "") if named else (packed(), "")
    if path is None:
        path, why = made()
    why = why or unfit() or ""
    if path is None or why:
        return why
    try:
        return Library(path)
    except (OSError, AttributeError) as fault:
        return str(fault)


_known: Dict[Optional[str], Union[Library, str]] = {}
_lock = threading.RLock()
os.register_at_fork(before=_lock.acquire, after_in_parent=_lock.release, after_in_child=_lock.release)


def _found() -> Union[Library, str]:
    named = os.environ.get(VARIABLE) or None
    found = _known.get(named)
    if found is None:
        with _lock:
            found = _known.get(named) or _load(named)
            _known[named] = found
    return found


def find_library() -> Optional[Library]:
    """The library: that of HPKEBATCH_LIBRARY, else the one that was installed with this package, else the clone's. None
    where there is none. One that is named and can't be loaded raises LibraryNotFound."""
    found = _found()
    if isinstance(found, Library):
        return found
    if os.environ.get(VARIABLE):
        raise LibraryNotFound(found)
    return None


def need_library() -> Library:
    """The same; LibraryNotFound where there is none."""
    found = _found()
    if isinstance(found, Library):
        return found
    raise LibraryNotFound(found)
