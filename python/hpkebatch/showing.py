"""What `hpkebatch show` says of a file: a key, a sealed file, or sealed messages."""

from __future__ import annotations

from typing import List, Tuple

from . import files
from .errors import FileFault
from .keys import HASH_SIZE, SecretKey, fingerprint, grouped, parse_key
from .sealed import MESSAGES_MAGIC, Head, Sealed, counted
from .sources import Source, opened

Rows = List[Tuple[str, str]]


def describe(path: str) -> str:
    """A text of a few lines."""
    source = opened(path)
    try:
        front = source.read(len(MESSAGES_MAGIC))
        source.rewind()
        if front == MESSAGES_MAGIC:
            rows = _of_messages(source)
        elif front.startswith(b"hpkebatch sealed "):
            rows = _of_file(source)
        else:
            rows = _of_key(source)
    finally:
        source.close()
    return "".join(f"{name + ':':<13} {text}\n" for name, text in rows)


def _of_key(source: Source) -> Rows:
    try:
        key, is_old = parse_key(source.read(source.size))
    except ValueError as fault:
        raise FileFault(source.name, str(fault)) from None
    kind, whose = ("secret key", "its public key") if isinstance(key, SecretKey) else ("public key", "it")
    form = " (of hpkebatch 0.2.0, with no checksum)" if is_old else ""
    return [("kind", kind + form), ("KEM", key.kem.name), ("fingerprint", f"{fingerprint(key)}   of {whose}")]


def _of_file(source: Source) -> Rows:
    head = files.read_head(source)
    layout = files.layout_of(head)
    due = layout.sealed_size(head)
    found = "" if source.size == due else f"; it is spoilt: {source.size:,} bytes in place of {due:,}"
    size = f"{counted(layout.size, 'byte')} in {counted(layout.parts, 'part')}"
    return [("kind", "sealed file"), *_of_head(head), ("size", size + found)]


def _of_messages(source: Source) -> Rows:
    try:
        sealed = Sealed.from_bytes(source.read(source.size))
    except ValueError as fault:
        raise FileFault(source.name, str(fault)) from None
    size = f"{counted(len(sealed), 'message')} in {counted(len(sealed.parts), 'part')}"
    return [("kind", "sealed messages"), *_of_head(sealed.head), ("size", size)]


def _of_head(head: Head) -> Rows:
    kem, kdf, aead = head.suite
    recipient = f"{grouped(head.recipient)} ..   the first {HASH_SIZE} bytes of the fingerprint"
    return [("suite", f"{kem.name}, {kdf.name}, {aead.name}"), ("recipient", recipient)]
