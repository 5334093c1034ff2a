"""Tests what a call was given, and says what is wrong in the caller's words."""

from __future__ import annotations

from typing import Iterable, List, Optional

from .suites import LIMITS, Aead, Kdf, Kem, Limits, Psk
from .sealed import MESSAGES_MAGIC, Suite

BYTES = (bytes, bytearray, memoryview)
MOST_INFO = LIMITS.field - len(MESSAGES_MAGIC)
HASH_SIZES = {Kdf.HKDF_SHA256: 32, Kdf.HKDF_SHA384: 48, Kdf.HKDF_SHA512: 64}


def octets(given: object, what: str, most: int) -> bytes:
    """Bytes, at most so many of them. Of what may change a copy is taken."""
    if type(given) is not bytes:
        if isinstance(given, str):
            raise TypeError(f"{what} is text, and bytes are wanted: encode it first, as in text.encode()")
        if not isinstance(given, BYTES):
            raise TypeError(f"{what} is of type {type(given).__name__}, and bytes are wanted")
        given = memoryview(given).tobytes()
    if len(given) > most:
        raise ValueError(f"{what} has {len(given):,} bytes, and at most {most:,} are allowed")
    return given


def octets_of_each(given: Iterable[bytes], what: str, most: int) -> List[bytes]:
    if isinstance(given, (str, *BYTES)):
        raise TypeError(f"{what}s is a list of byte strings: write [{what}] for a single one")
    listed = list(given)
    for place, it in enumerate(listed):
        if type(it) is not bytes or len(it) > most:
            listed[place] = octets(it, f"{what} {place}", most)
    return listed


def aads_for(aads: Optional[Iterable[bytes]], count: int, limits: Limits) -> Optional[List[bytes]]:
    """Associated data, one for each message."""
    if aads is None:
        return None
    listed = octets_of_each(aads, "aad", limits.field)
    if len(listed) != count:
        raise ValueError(f"there are {count:,} messages and {len(listed):,} aads")
    return listed


def info(given: object) -> bytes:
    return octets(given, "info", MOST_INFO)


def psk(given: Optional[Psk]) -> Optional[Psk]:
    if given is None:
        return None
    if not isinstance(given, Psk):
        raise TypeError(f"psk is of type {type(given).__name__}: give Psk(secret, id)")
    secret = octets(given.secret, "the secret of a psk", LIMITS.field)
    name = octets(given.id, "the id of a psk", LIMITS.field)
    if not secret or not name:
        raise ValueError("a psk has a secret and an id, and neither is empty")
    return Psk(secret, name)


def kdf(given: int) -> Kdf:
    if given not in list(Kdf):
        raise ValueError(f"kdf is {given!r}, and has to be one of {', '.join(it.name for it in Kdf)}")
    return Kdf(given)


def suite(kem: Kem, kdf_given: int, aead: int) -> Suite:
    """A suite that seals."""
    if aead == Aead.EXPORT_ONLY:
        raise ValueError("aead is EXPORT_ONLY, which seals nothing")
    if aead not in list(Aead):
        raise ValueError(f"aead is {aead!r}, and has to be AES_128_GCM or AES_256_GCM")
    return Suite(kem, kdf(kdf_given), Aead(aead))


def test_export(size: int, kdf_given: int, aead: int) -> None:
    most = 255 * HASH_SIZES[kdf(kdf_given)]
    if not isinstance(size, int) or not 0 <= size <= most:
        raise ValueError(f"size is {size!r}, and has to be from 0 to {most:,} with this kdf")
    if aead not in list(Aead):
        raise ValueError(f"aead is {aead!r}, and has to be one of {', '.join(it.name for it in Aead)}")


def encapsulation(given: object, kem: Kem) -> bytes:
    enc = octets(given, "enc", LIMITS.field)
    if len(enc) != kem.enc_size:
        raise ValueError(f"enc has {len(enc):,} bytes, and an encapsulation of {kem.name} has {kem.enc_size:,}")
    return enc
