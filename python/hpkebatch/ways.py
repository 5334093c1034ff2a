"""Which way a call of this package goes: by the library in this process, or by runs of the command.

Both give the same values and the same faults. A call that is given a runner goes by that. Else it goes by the library,
where there is one. HPKEBATCH_WAY in the environment makes one of them the only one: `library` or `command`.

There is no size from which on the command would be taken: from one message of 64 bytes to 48 MiB in one list none was found at
which it is clearly the faster one. For one message the library takes 0.4 ms where the command takes 5. For 48 MiB in one list it takes
0.24 s of a processor, and the command 0.24 s in Python, whose hex digits take as long as sealing, and 0.54 s of its own, which
four workers share. For 65,536 messages of 64 bytes, and for 256 with an encapsulation each, both take about as long. (Times of
2026-12-01, by turns, on a machine with much other work beside it.)
"""

from __future__ import annotations

import os
from typing import List, Optional, Sequence

from . import contexts, direct, parts
from .command import Runner
from .keys import KeyPair, PublicKey, SecretKey
from .parts import OpenedPart, PartTask, Root, RootAsked, SealedPart
from .shared_library import find_library, need_library
from .suites import LIMITS, Kem, Limits, Psk

VARIABLE = "HPKEBATCH_WAY"
LIBRARY, COMMAND = "library", "command"


def is_direct(runner: Optional[Runner]) -> bool:
    """Whether a call goes by the library."""
    if runner is not None:
        return False
    way = os.environ.get(VARIABLE, "")
    if way == LIBRARY:
        need_library()
    elif way not in ("", COMMAND):
        raise ValueError(f"{VARIABLE} is {way!r}, and has to be {LIBRARY} or {COMMAND}")
    return way != COMMAND and find_library() is not None


def key_pair(kem: Kem, runner: Optional[Runner]) -> Optional[KeyPair]:
    """A pair that the library made, or None where that is the command's to do."""
    return contexts.key_pair(kem) if is_direct(runner) else None


def sender_roots(
    to: PublicKey, asked: Sequence[RootAsked], psk: Optional[Psk], runner: Optional[Runner], limits: Limits = LIMITS
) -> List[Root]:
    """Fresh roots."""
    if is_direct(runner):
        return direct.sender_roots(to, asked, psk)
    return parts.sender_roots(to, asked, psk, runner, limits)


def recipient_roots(
    key: SecretKey, asked: Sequence[RootAsked], psk: Optional[Psk], runner: Optional[Runner], limits: Limits = LIMITS
) -> List[Root]:
    """The roots of given encapsulations."""
    if is_direct(runner):
        return direct.recipient_roots(key, asked, psk)
    return parts.recipient_roots(key, asked, psk, runner, limits)


def seal_parts(given: Sequence[PartTask], runner: Optional[Runner] = None, limits: Limits = LIMITS) -> List[SealedPart]:
    """The parts, sealed. The same parts give the same bytes, whichever way they go."""
    return direct.seal_parts(given) if is_direct(runner) else parts.seal_parts(given, runner, limits)


def open_parts(given: Sequence[PartTask], runner: Optional[Runner] = None, limits: Limits = LIMITS) -> List[OpenedPart]:
    """The parts, opened as far as they open."""
    return direct.open_parts(given) if is_direct(runner) else parts.open_parts(given, runner, limits)
