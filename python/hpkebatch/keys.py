"""Keys, and the files that hold them: one form for sh, Python and C (docs/FORMAT.md, "Key files and sealed files").

    hpkebatch public key 2: sntrup761
    e6a07741d8084e7c3069fd4e7c669f...
    sha256 3a7bd3e2360a3d29eea436fcfb7e44c7...
"""

from __future__ import annotations

import base64
import hashlib
import hmac
import os
import re
from binascii import Error as NotBase64
from dataclasses import dataclass, field
from typing import List, NamedTuple, NoReturn, Optional, Tuple, Union

from .errors import FileFault
from .new_file import NewFile
from .suites import KEMS, Kem, kem_of_public, kem_of_secret

HASH_SIZE = 8  # so much of a public key's hash names the recipient in the head of what is sealed
CONFIRM_SIZE = 32  # of the public key's hash at the end of a secret key
MOST_OF_FILE = 16_384
DIGITS_OF_LINE = 64
HEAD = re.compile(rb"hpkebatch (?P<kind>public|secret) key(?: (?P<version>[0-9]+))?: (?P<name>[!-~]+)")
SUM = b"sha256 "


@dataclass(frozen=True, repr=False, eq=False)
class PublicKey:
    """A key to seal to; its size tells its KEM. `bytes(key)` gives its bytes."""

    data: bytes
    kem: Kem = field(init=False)

    def __post_init__(self) -> None:
        object.__setattr__(self, "data", bytes(memoryview(self.data)))
        object.__setattr__(self, "kem", kem_of_public(self.data))

    def __bytes__(self) -> bytes:
        return self.data

    def __eq__(self, other: object) -> bool:
        return isinstance(other, PublicKey) and self.data == other.data

    def __hash__(self) -> int:
        return hash(self.data)

    def __repr__(self) -> str:
        return f"<PublicKey of {self.kem.name}: {fingerprint(self)}>"

    @property
    def hash(self) -> bytes:
        """SHA-256 of its bytes."""
        return hashlib.sha256(self.data).digest()


@dataclass(frozen=True, repr=False, eq=False)
class SecretKey:
    """A key to open with; its size tells its KEM. `bytes(key)` gives its bytes.

    It isn't pickled: where another process needs it, give it `bytes(key)`.
    """

    data: bytes
    kem: Kem = field(init=False)

    def __post_init__(self) -> None:
        object.__setattr__(self, "data", bytes(memoryview(self.data)))
        object.__setattr__(self, "kem", kem_of_secret(self.data))

    def __bytes__(self) -> bytes:
        return self.data

    def __eq__(self, other: object) -> bool:
        return isinstance(other, SecretKey) and hmac.compare_digest(self.data, other.data)

    def __hash__(self) -> int:
        return hash(self.public)

    def __repr__(self) -> str:
        return f"<SecretKey of {self.kem.name}, of the public key {fingerprint(self)}>"

    def __copy__(self) -> SecretKey:
        return self

    def __deepcopy__(self, memo: object) -> SecretKey:
        return self

    def __reduce_ex__(self, protocol: object) -> NoReturn:
        raise TypeError("a secret key isn't pickled: hand on bytes(key) where you mean to")

    @property
    def public(self) -> PublicKey:
        """The public key, which stands in each secret one behind f and 1/g, and before rho, which is as long as these."""
        size = self.kem.public_size
        start = 2 * ((self.kem.secret_size - size - CONFIRM_SIZE) // 3)
        return PublicKey(self.data[start : start + size])


@dataclass(frozen=True, repr=False)
class KeyPair:
    public: PublicKey
    secret: SecretKey

    def __post_init__(self) -> None:
        if secret_key(self.secret, "secret").public != public_key(self.public, "public"):
            raise ValueError("the public and the secret key belong to two pairs")

    def __repr__(self) -> str:
        return f"<KeyPair of {self.public.kem.name}: {fingerprint(self.public)}>"


AnyKey = Union[PublicKey, SecretKey]


def fingerprint(key: Union[PublicKey, SecretKey, KeyPair, bytes]) -> str:
    """A short name of a public key, to compare by eye: the first half of its SHA-256. Of a secret key or of a pair it
    is that of the public key."""
    public = key.public if isinstance(key, (SecretKey, KeyPair)) else public_key(key, "key")
    return grouped(public.hash[:16])


def grouped(data: bytes) -> str:
    """Hex digits in groups of four."""
    return data.hex(" ", -2)


# ---- keys that a call is given


def public_key(given: object, what: str) -> PublicKey:
    """The public key that a call's argument is."""
    if isinstance(given, PublicKey):
        return given
    if isinstance(given, KeyPair):
        raise TypeError(f"`{what}` is a pair of keys: give its public half, pair.public")
    if isinstance(given, SecretKey):
        raise TypeError(f"`{what}` is a secret key, and a public one is wanted: key.public")
    data = _bytes_of(given, what, "read_public_key")
    if any(len(data) == kem.secret_size for kem in KEMS):
        raise ValueError(f"`{what}` has the size of a secret key, and a public one is wanted: SecretKey({what}).public")
    return PublicKey(data)


def secret_key(given: object, what: str) -> SecretKey:
    """The secret key that a call's argument is."""
    if isinstance(given, SecretKey):
        return given
    if isinstance(given, KeyPair):
        raise TypeError(f"`{what}` is a pair of keys: give its secret half, pair.secret")
    if isinstance(given, PublicKey):
        raise TypeError(f"`{what}` is a public key, and the secret one is wanted")
    data = _bytes_of(given, what, "read_secret_key")
    if any(len(data) == kem.public_size for kem in KEMS):
        raise ValueError(f"`{what}` has the size of a public key, and the secret one is wanted")
    return SecretKey(data)


def _bytes_of(given: object, what: str, reader: str) -> bytes:
    if not isinstance(given, (bytes, bytearray, memoryview)):
        kind = "text" if isinstance(given, str) else f"a {type(given).__name__}"
        raise TypeError(f"`{what}` is {kind}, and a key is wanted; hpkebatch.{reader} reads a key file")
    data = bytes(given)
    if data.startswith(b"hpkebatch "):
        raise ValueError(f"`{what}` is the text of a file; hpkebatch.{reader} reads a key file")
    return data


# ---- key files


class KeyFile(NamedTuple):
    key: AnyKey
    is_old: bool  # of hpkebatch 0.2.0: in base64, with no checksum


def key_text(key: AnyKey) -> bytes:
    """The text of a key's file."""
    digits = key.data.hex()
    lines = [digits[at : at + DIGITS_OF_LINE] for at in range(0, len(digits), DIGITS_OF_LINE)]
    kind = "secret" if isinstance(key, SecretKey) else "public"
    text = "".join(f"{line}\n" for line in [f"hpkebatch {kind} key 2: {key.kem.name}", *lines]).encode()
    return text + SUM + hashlib.sha256(text).hexdigest().encode() + b"\n"


def write_pair(pair: KeyPair, name: str) -> Tuple[str, str]:
    """Writes NAME.key, for its owner alone, and NAME.pub: both, or neither. Nothing is written over."""
    paths = f"{name}.key", f"{name}.pub"
    files: List[NewFile] = []
    try:
        for path, text in zip(paths, (key_text(pair.secret), key_text(pair.public))):
            files.append(NewFile(path))
            files[-1].write([text])
        for file, mode in zip(files, (0o600, 0o666)):
            file.finish(mode)
    except BaseException:
        for file in files:
            file.remove()
        raise
    finally:
        for file in files:
            file.close()
    return paths


def read_public_key(path: Union[str, os.PathLike[str]]) -> PublicKey:
    """The public key of a file; a FileFault where it holds another thing. Files of hpkebatch 0.2.0 are read too."""
    key = read_key_file(path, PublicKey).key
    assert isinstance(key, PublicKey)
    return key


def read_secret_key(path: Union[str, os.PathLike[str]]) -> SecretKey:
    """The secret key of a file; a FileFault where it holds another thing. Files of hpkebatch 0.2.0 are read too."""
    key = read_key_file(path, SecretKey).key
    assert isinstance(key, SecretKey)
    return key


def read_key_file(path: Union[str, os.PathLike[str]], wanted: Optional[type] = None) -> KeyFile:
    """The key of a file; `wanted` is PublicKey, SecretKey, or None for either."""
    name = os.fspath(path)
    with open(name, "rb") as file:
        data = file.read(MOST_OF_FILE + 1)
    try:
        return parse_key(data, wanted)
    except ValueError as fault:
        raise FileFault(name, str(fault)) from None


def parse_key(data: bytes, wanted: Optional[type] = None) -> KeyFile:
    """The key of a file's text; a ValueError that says why it is none."""
    head = data.partition(b"\n")[0]
    found = HEAD.fullmatch(head.rstrip(b"\r"))
    if found is None:
        raise ValueError("it isn't a key file of hpkebatch")
    if b"\r" in data:
        raise ValueError("its lines end with CR LF, and a key file's end with LF: mend it by `tr -d '\\r'`")
    is_old = found["version"] is None
    if found["version"] not in (None, b"2"):
        raise ValueError(f"it is a key file of a newer form, {found['version'].decode()}")
    if not is_old:
        _test_sum(data)
    is_secret = found["kind"] == b"secret"
    if wanted is not None and is_secret != (wanted is SecretKey):
        kinds = ("secret", "public") if is_secret else ("public", "secret")
        raise ValueError("it holds a {} key, and a {} key is wanted here".format(*kinds))
    kem = _kem(found["name"].decode())
    key_bytes = _right_size(_base64(data) if is_old else _hex(data), kem.secret_size if is_secret else kem.public_size)
    key: AnyKey = SecretKey(key_bytes) if is_secret else PublicKey(key_bytes)
    if not is_old and key_text(key) != data:
        raise ValueError("it isn't written as key files are: lower case digits, 64 on a line")
    return KeyFile(key, is_old)


def _kem(name: str) -> Kem:
    for kem in KEMS:
        if kem.name == name:
            return kem
    raise ValueError(f"its KEM, {name}, isn't known here: {' and '.join(kem.name for kem in KEMS)} are")


def _test_sum(data: bytes) -> None:
    """Tests the checksum, and that nothing is missing before it or stands behind it."""
    text, mark, sums = data.partition(b"\n" + SUM)
    digits, line_feed, behind = sums.partition(b"\n")
    if behind:
        raise ValueError("bytes stand behind its end")
    if not mark or not line_feed:
        raise ValueError("it is cut: a key file ends with a line `sha256 ..`")
    if not hmac.compare_digest(digits, hashlib.sha256(text + b"\n").hexdigest().encode()):
        raise ValueError("it is spoilt: its checksum doesn't hold")


def _hex(data: bytes) -> bytes:
    try:
        return bytes.fromhex(b"".join(data.split(b"\n")[1:-2]).decode("ascii"))
    except ValueError:
        raise ValueError("it isn't written as key files are: its digits aren't hex") from None


def _base64(data: bytes) -> bytes:
    try:
        return base64.b64decode(b"".join(data.partition(b"\n")[2].split()), validate=True)
    except NotBase64:
        raise ValueError("it is spoilt: its key isn't base64") from None


def _right_size(data: bytes, size: int) -> bytes:
    if len(data) != size:
        raise ValueError(f"its key has {len(data):,} bytes, and should have {size:,}")
    return data
