"""Why a judgement may be none: files that are exchanged, or of another command."""

from __future__ import annotations

import re
from typing import Optional

BATCH_WORDS = {b"rand", b"share", b"send", b"recv", b"ask", b"answer", b"take"}
KEY_WORDS = re.compile(rb"(keygen|secret|peer)[0-9]*")
REPLY_WORDS = {b"key", b"context", b"journal", b"table", b"asked", b"answered", b"took", b"refused"}
OF_LIVE = re.compile(rb"^(?:add |retire |\w+ \+)", re.M)
OF_CAPSULES = re.compile(rb"^(?:ask|answer|take|asked|answered|took) ", re.M)


def is_batch(text: bytes) -> bool:
    """Whether a text begins as a batch does, and not as a reply."""
    second = _second_line(text)
    word = second.split(b" ")[0]
    return second == b"lane" or word in BATCH_WORDS or KEY_WORDS.fullmatch(word) is not None


def is_reply(text: bytes) -> bool:
    second = _second_line(text)
    return second.startswith(b"lane ") or second.split(b" ")[0] in REPLY_WORDS


def is_of_capsules(text: bytes) -> bool:
    return OF_CAPSULES.search(text) is not None


def _second_line(text: bytes) -> bytes:
    lines = text[:200_000].split(b"\n", 2)
    return lines[1] if len(lines) > 1 and lines[0] in (b"hpkebatch 1", b"hpkebatch 2") else b""


def likely_cause(batch: bytes, reply: bytes, is_live: bool) -> Optional[str]:
    """What whoever asked for the judgement has most likely mixed up."""
    if is_reply(batch) and is_batch(reply):
        return "the two files are exchanged: the batch comes first"
    if is_reply(batch):
        return "BATCH is a reply"
    if is_batch(reply):
        return "REPLY is a batch"
    if is_of_capsules(batch):
        return "the batch is one of capsules, whose replies aren't judged: run it again and compare"
    is_of_live = OF_LIVE.search(batch) is not None or b"\ntable\n" in reply
    if is_of_live and not is_live:
        return "they are of `live`: say --live"
    if is_live and b"\ntable\n" not in reply:
        return "the reply has no table, so it isn't one of `live`: leave --live out"
    return None
