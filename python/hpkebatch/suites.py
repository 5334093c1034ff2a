"""Names and limits of docs/FORMAT.md: parameter sets, suites, psks, and how much a batch may hold."""

from __future__ import annotations

from dataclasses import dataclass, field
from enum import IntEnum


@dataclass(frozen=True)
class Kem:
    """A parameter set of Streamlined NTRU Prime. The sizes are in bytes."""

    name: str
    id: int
    suffix: str  # of the words `keygen`, `secret` and `peer`
    public_size: int
    secret_size: int
    enc_size: int


SNTRUP761 = Kem("sntrup761", 63329, "", 1158, 1763, 1039)
SNTRUP857 = Kem("sntrup857", 63575, "857", 1322, 1999, 1184)
KEMS = (SNTRUP761, SNTRUP857)


class Kdf(IntEnum):
    """The key derivation of a suite (RFC 9180, 7.2)."""

    HKDF_SHA256 = 1
    HKDF_SHA384 = 2
    HKDF_SHA512 = 3


class Aead(IntEnum):
    """The cipher of a suite (RFC 9180, 7.3)."""

    AES_128_GCM = 1
    AES_256_GCM = 2
    EXPORT_ONLY = 65535


@dataclass(frozen=True)
class Psk:
    """A pre-shared key and its name (RFC 9180, 5.1.2). It should have 32 random bytes or more."""

    secret: bytes = field(repr=False)
    id: bytes

    def __post_init__(self) -> None:
        for what, data in (("a psk", self.secret), ("the id of a psk", self.id)):
            if not isinstance(data, (bytes, bytearray, memoryview)):
                raise TypeError(f"{what} is bytes, not {type(data).__name__}")


@dataclass(frozen=True)
class Limits:
    """How much a batch may hold; sizes are in bytes. The program's own limits are the default."""

    input: int = 67_108_864
    keys: int = 64
    contexts: int = 256
    lanes: int = 16
    opening: int = 4_096  # items of one `unsealall`
    items: int = 65_536
    exported: int = 16_777_216
    message: int = 1_048_576
    field: int = 65_535


LIMITS = Limits()
TAG_SIZE = 16
SEED_SIZE = 32
ID_SIZE = 32  # of the random id of what is sealed
MOST_MESSAGES = 2**64 - 1  # the greatest LIMIT of a context


def kem_of_public(public: bytes) -> Kem:
    """The set of a public key, by its length."""
    for kem in KEMS:
        if len(public) == kem.public_size:
            return kem
    sizes = " or ".join(f"{kem.public_size:,} ({kem.name})" for kem in KEMS)
    raise ValueError(f"a public key has {sizes} bytes, and this one has {len(public):,}")


def kem_of_secret(secret: bytes) -> Kem:
    """The set of a secret key, by its length."""
    for kem in KEMS:
        if len(secret) == kem.secret_size:
            return kem
    sizes = " or ".join(f"{kem.secret_size:,} ({kem.name})" for kem in KEMS)
    raise ValueError(f"a secret key has {sizes} bytes, and this one has {len(secret):,}")
