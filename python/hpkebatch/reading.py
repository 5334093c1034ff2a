"""Reads the text of a batch back into a Batch: for stored batches, whose replies can't be read without them."""

from __future__ import annotations

from typing import Any, Callable, Dict, List, Optional, Tuple, TypeVar, Union

from .answers import get
from .asked import AddedName, Answer, Ask, Context
from .batch import Batch, Lane, SeededBatch
from .capsules import CapsuleBatch
from .suites import SNTRUP761, SNTRUP857, Psk

Fields = List[bytes]
B = TypeVar("B", Batch, CapsuleBatch)


def read_batch(text: bytes) -> Batch:
    """The batch whose text this is; a ValueError where it is the text of none.

    It can be run once, as any other: nothing tells whether its text was run before, by this package or by the program.
    So a batch that seals is read to read its reply. To run it again, `rehearse` it with the schedule of its first run.
    A batch that only opens and exports may be run as often as you like.
    """
    version, seed, lines = _opened(text)
    batch = Batch(seed=seed, version=version)
    for at, (word, fields) in lines:
        _read(at, _batch_line, batch, word, fields)
    return _same(batch, text)


def read_capsules(text: bytes) -> CapsuleBatch:
    """The batch of capsules whose text this is; a ValueError where it is the text of none."""
    version, seed, lines = _opened(text)
    if version != 2:
        raise ValueError("a batch of capsules has version 2")
    batch = CapsuleBatch(seed=seed)
    for at, (word, fields) in lines:
        _read(at, _capsule_line, batch, word, fields)
    return _same(batch, text)


def _opened(text: bytes) -> Tuple[int, Optional[bytes], List[Tuple[int, Tuple[bytes, Fields]]]]:
    """Version, seed, and the lines between these and `end`, with their numbers."""
    rows = text.split(b"\n")
    if rows[-2:] != [b"end", b""] or rows[0] not in (b"hpkebatch 1", b"hpkebatch 2"):
        raise ValueError("a batch begins with a line `hpkebatch 1` or `hpkebatch 2` and ends with a line `end`")
    has_seed = rows[1].startswith(b"rand ")
    seed = get(rows[1][5:]) if has_seed else None
    first = 2 if has_seed else 1
    pieces = [row.split(b" ") for row in rows[first:-2]]
    return int(rows[0][-1:]), seed, [(at, (it[0], it[1:])) for at, it in enumerate(pieces, first + 1)]


def _read(at: int, read: Callable[[Any, bytes, Fields], None], batch: Any, word: bytes, fields: Fields) -> None:
    try:
        read(batch, word, fields)
    except (ValueError, IndexError, KeyError) as fault:
        raise ValueError(f"line {at} of the batch: {fault}") from None


def _same(batch: B, text: bytes) -> B:
    if batch.text() != text:
        raise ValueError("the batch isn't spelled as the format has it")
    return batch


def _key_line(batch: SeededBatch, word: bytes, fields: Fields) -> bool:
    kem = SNTRUP857 if word.endswith(SNTRUP857.suffix.encode()) else SNTRUP761
    name = word[: len(word) - len(kem.suffix)]
    if name == b"keygen":
        batch.keygen(kem)
    elif name == b"secret":
        batch.secret(get(fields[0]), kem)
    elif name == b"peer":
        batch.peer(get(fields[0]), kem)
    else:
        return False
    return True


def _rest(fields: Fields) -> Dict[str, Any]:
    """MODE INFO PSK PSKID LIMIT."""
    mode, info, psk, psk_id, limit = fields
    return {"mode": mode.decode(), "info": get(info), "psk": Psk(get(psk), get(psk_id)), "limit": int(limit)}


def _share(fields: Fields) -> Dict[str, Any]:
    role, kem, kdf, aead, secret = fields[:5]
    suite = {"kem_id": int(kem), "kdf": int(kdf), "aead": int(aead)}
    return {"role": role.decode(), **suite, "secret": get(secret), **_rest(fields[5:])}


def _named(batch: Batch, name: bytes) -> Union[Context, AddedName]:
    return batch.added(int(name[1:])) if name[:1] == b"+" else batch.context(int(name))


def _batch_line(batch: Batch, word: bytes, fields: Fields) -> None:
    if _key_line(batch, word, fields):
        return
    if word == b"share":
        batch.share(**_share(fields))
    elif word == b"send":
        kdf, aead, key = map(int, fields[:3])
        batch.send(batch.key(key), kdf=kdf, aead=aead, **_rest(fields[3:]))
    elif word == b"recv":
        kdf, aead, key = map(int, fields[:3])
        is_named = fields[3][:1] == b"@"
        enc: Union[bytes, Context] = batch.context(int(fields[3][1:])) if is_named else get(fields[3])
        batch.recv(batch.key(key), enc, kdf=kdf, aead=aead, **_rest(fields[4:]))
    elif word == b"lane":
        batch.lane()
    else:
        _call(batch.lanes[-1], word, fields)


def _call(lane: Lane, word: bytes, fields: Fields) -> None:
    batch = lane.batch
    if word == b"add":
        lane.add(**_share(fields))
        return
    context = _named(batch, fields[0])
    if word == b"seal":
        lane.seal(context, get(fields[2]), get(fields[1]))
    elif word == b"unseal":
        lane.unseal(context, get(fields[2]), get(fields[1]))
    elif word == b"unsealall":
        lane.unsealall(context, [(get(aad), get(text)) for aad, text in zip(fields[1::2], fields[2::2])])
    elif word == b"export":
        lane.export(context, get(fields[1]), int(fields[2]))
    elif word == b"retire" and isinstance(context, AddedName):
        lane.retire(context)
    else:
        raise ValueError(f"no line begins with {word!r}")


def _capsule_line(batch: CapsuleBatch, word: bytes, fields: Fields) -> None:
    if _key_line(batch, word, fields):
        return
    if word == b"ask":
        key, id, kdf, aead = map(int, fields[:4])
        batch.ask(batch.key(key), id, get(fields[4]), kdf=kdf, aead=aead)
    elif word == b"answer":
        is_named = fields[2][:1] == b"@"
        request: Union[bytes, Ask] = batch.named_ask(int(fields[2][1:])) if is_named else get(fields[2])
        nonce, text = get(fields[3]), get(fields[4])
        batch.answer(batch.key(int(fields[0])), int(fields[1]), request, text, nonce=nonce)
    elif word == b"take":
        is_named = fields[1][:1] == b"@"
        response: Union[bytes, Answer] = batch.named_answer(int(fields[1][1:])) if is_named else get(fields[1])
        batch.take(int(fields[0]), response)
    else:
        raise ValueError(f"no line begins with {word!r}")
