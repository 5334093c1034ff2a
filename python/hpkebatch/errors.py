"""What can go wrong. Every exception of this package that isn't a plain `TypeError` or `ValueError` is a `HpkeBatchError`."""

from __future__ import annotations

from typing import Any, List, Optional, Sequence, Tuple, Union


class HpkeBatchError(Exception):
    """The base of this package's exceptions."""


class CommandNotFound(HpkeBatchError):
    """The command `hpkebatch` isn't there, or can't be started."""


class LibraryNotFound(HpkeBatchError):
    """The library for C isn't there, or can't be loaded. `why` says what was wrong with the one that was found."""

    def __init__(self, why: str) -> None:
        super().__init__(why)
        self.why = why

    def __str__(self) -> str:
        return (
            f"no library for contexts in this process ({self.why}): install a package of hpkebatch that has one, or name a "
            "libhpkebatch.so.0 in HPKEBATCH_LIBRARY"
        )


class ContextEnded(HpkeBatchError, ValueError):
    """A call on a context that was closed, or that is the process's from which this one was forked."""


class OverLimit(HpkeBatchError, ValueError):
    """The batch, or one of its fields, would hold more than docs/FORMAT.md allows."""


class AlreadyRun(HpkeBatchError):
    """A batch that seals was run before, so running it again could use a key and a nonce for two messages."""


class ReplyError(HpkeBatchError, ValueError):
    """A text isn't a reply to its batch. `line` counts from 1."""

    def __init__(self, line: int, why: str) -> None:
        super().__init__(line, why)
        self.line, self.why = line, why

    def __str__(self) -> str:
        return f"line {self.line} of the reply: {self.why}"


# ---- runs that failed


class RunFailed(HpkeBatchError):
    """The command ended with another status than 0. A negative status is the signal that ended it."""

    def __init__(self, status: int, said: str) -> None:
        super().__init__(status, said)
        self.status, self.said = status, said

    def __str__(self) -> str:
        return f"hpkebatch ended with status {self.status}: {self.said or 'it said nothing'}"


class UsageError(RunFailed):
    """Status 2: the command doesn't know these words. Nothing was read."""


class ReadFault(RunFailed):
    """Status 4: the command couldn't read its input. Nothing was written."""


class WriteFault(RunFailed):
    """Status 5: the command couldn't write its reply. A part of it may be out."""


class OutOfMemory(RunFailed):
    """Status 6: out of memory. Nothing was written."""


class BuildFailed(RunFailed):
    """Status 125: the repository's launcher couldn't build the program. Nothing was read."""


class BadBatch(RunFailed):
    """Status 3: the batch has a bad line. `line` counts from 1, `asked` is what that line was made for."""

    def __init__(self, line: int, reason: str, asked: Optional[object] = None) -> None:
        super().__init__(3, f"bad {line} {reason}")
        self.args = (line, reason, asked)
        self.line, self.reason, self.asked = line, reason, asked

    def __str__(self) -> str:
        made_for = "" if self.asked is None else f", made for {self.asked}"
        return f"line {self.line} of the batch is bad ({self.reason}){made_for}"


class IllegalReply(RunFailed):
    """Status 7: `check` found that the command can't have written this reply.

    `kind` is form, journal, table, stamps, reply or guess. `at` is the number of the line; for a journal that of the
    context, or `+K` of an added one. `asked` is the call or the context that it is about, where there is one.
    """

    def __init__(self, kind: str, at: Union[int, str, None], asked: Optional[object] = None) -> None:
        super().__init__(7, f"broken {kind}" + ("" if at is None else f" {at}"))
        self.args = (kind, at, asked)
        self.kind, self.at, self.asked = kind, at, asked

    def __str__(self) -> str:
        about = "" if self.asked is None else f", the answer to {self.asked}"
        return f"the reply is not legal: {self.said}{about}"


# ---- answers that aren't there


class CallError(HpkeBatchError):
    """Some call, key or context has no answer but a refusal. `asked` is what was asked for."""

    def __init__(self, word: str, asked: object) -> None:
        super().__init__(word, asked)
        self.word, self.asked = word, asked

    def __str__(self) -> str:
        return f"{self.asked}: {self.word}"


class Refused(CallError):
    """A line was refused; `word` is the reason, as docs/FORMAT.md lists them."""

    def __str__(self) -> str:
        return f"{self.asked} was refused: {self.word}"


class OpenFailed(CallError):
    """A message doesn't open. `number` is the sequence number at which it was tried."""

    def __init__(self, asked: object, number: int) -> None:
        super().__init__("failed", asked)
        self.args = (asked, number)
        self.number = number

    def __str__(self) -> str:
        return (
            f"{self.asked} doesn't open as message {self.number} of its context: it was changed or is out of order, "
            "or key, info, psk or associated data are others than the sender's"
        )


class LimitReached(CallError):
    """The context has sealed or opened as many messages as its LIMIT allows."""

    def __init__(self, asked: object) -> None:
        super().__init__("limit", asked)
        self.args = (asked,)

    def __str__(self) -> str:
        return f"{self.asked} is past the LIMIT of its context"


class WrongKey(HpkeBatchError):
    """What was sealed names another recipient. `recipient` is the beginning of that key's fingerprint, and `own` that of
    the key that was given."""

    def __init__(self, recipient: str, kem: str, own: str, own_kem: str) -> None:
        super().__init__(recipient, kem, own, own_kem)
        self.recipient, self.kem, self.own, self.own_kem = recipient, kem, own, own_kem

    def __str__(self) -> str:
        sets = "" if self.kem == self.own_kem else f", a key of {self.kem}"
        return f"it was sealed to another key: to {self.recipient} ..{sets}, and this key is {self.own} .."


class KeyRefused(HpkeBatchError, ValueError):
    """A secret key has the right size and not the right form."""

    def __str__(self) -> str:
        return "the secret key is spoilt: its polynomials aren't those of a key"


class MessageNotOpened(HpkeBatchError):
    """`hpkebatch.open` met a message that doesn't open, or an end mark.

    `index` is the message's place in the list, from 0; `part` is the part that it stands in. `opened` has the messages
    before it, which are whole. `is_end` says that all messages of the part opened, and the end mark behind them didn't.
    """

    def __init__(self, index: int, part: int, is_end: bool = False, opened: Sequence[bytes] = ()) -> None:
        super().__init__(index, part, is_end)  # without the messages: a traceback may print these
        self.index, self.part, self.is_end = index, part, is_end
        self.opened: List[bytes] = list(opened)

    def __reduce__(self) -> Tuple[Any, ...]:
        return type(self), (self.index, self.part, self.is_end, self.opened)

    def __str__(self) -> str:
        if self.is_end:
            return f"the end mark of part {self.part} doesn't open: the list was cut or spliced"
        return (
            f"message {self.index} (in part {self.part}) doesn't open: it was changed, or messages of the list are "
            "missing, moved or of another list, or info, psk or associated data are others than the sender's"
        )


class FileFault(HpkeBatchError):
    """A key file or a sealed file isn't as it should be. `path` names it."""

    def __init__(self, path: str, why: str) -> None:
        super().__init__(path, why)
        self.path, self.why = path, why

    def __str__(self) -> str:
        return f"{self.path}: {self.why}"
