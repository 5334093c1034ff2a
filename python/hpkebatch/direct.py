"""Roots and parts by the library, in this process: what parts.py does by a batch, with the same bytes and the same faults."""

from __future__ import annotations

from typing import List, Optional, Sequence

from .contexts import Recipient, Sender
from .errors import OpenFailed
from .keys import PublicKey, SecretKey
from .parts import END_AAD, OpenedPart, PartTask, Root, RootAsked, SealedPart
from .suites import Psk


def sender_roots(to: PublicKey, asked: Sequence[RootAsked], psk: Optional[Psk]) -> List[Root]:
    roots: List[Root] = []
    for it in asked:
        with Sender(to, info=it.info, psk=psk, kdf=it.kdf, aead=it.aead, limit=1) as sender:
            roots.append(Root(sender.enc, sender.export(it.label, it.size)))
    return roots


def recipient_roots(key: SecretKey, asked: Sequence[RootAsked], psk: Optional[Psk]) -> List[Root]:
    roots: List[Root] = []
    for it in asked:
        with Recipient(it.enc, key, info=it.info, psk=psk, kdf=it.kdf, aead=it.aead, limit=1) as recipient:
            roots.append(Root(it.enc, recipient.export(it.label, it.size)))
    return roots


def seal_parts(parts: Sequence[PartTask]) -> List[SealedPart]:
    sealed: List[SealedPart] = []
    for part in parts:
        kem, kdf, aead = part.suite
        limit = len(part.texts) + 1
        with Sender.from_shared_secret(part.secret, kem.id, info=part.info, kdf=kdf, aead=aead, limit=limit) as sender:
            *cts, end = sender.seal_many([*part.texts, b""], _aads(part))
        sealed.append(SealedPart(cts, end))
    return sealed


def open_parts(parts: Sequence[PartTask]) -> List[OpenedPart]:
    opened: List[OpenedPart] = []
    for part in parts:
        kem, kdf, aead = part.suite
        limit = len(part.texts) + 1
        with Recipient.from_shared_secret(part.secret, kem.id, info=part.info, kdf=kdf, aead=aead, limit=limit) as recipient:
            opened.append(_opened(recipient, part))
    return opened


def _opened(recipient: Recipient, part: PartTask) -> OpenedPart:
    cts, aads = [*part.texts, part.end], _aads(part)
    try:
        *texts, end = recipient.open_many(cts, aads)
        return OpenedPart(texts, end == b"")
    except OpenFailed as fault:
        return OpenedPart(recipient.open_many(cts[: fault.number], aads[: fault.number]), False)


def _aads(part: PartTask) -> List[bytes]:
    return [*(part.aads or [b""] * len(part.texts)), END_AAD]
