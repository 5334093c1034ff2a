"""How often a batch was run. A batch that seals must not run twice: one key and nonce could seal two messages."""

from __future__ import annotations

import os
import threading
from contextlib import contextmanager
from typing import Callable, Iterator, Optional, Tuple, Type

from .errors import AlreadyRun, BadBatch, BuildFailed, CommandNotFound, OutOfMemory, OverLimit, ReadFault, UsageError

# Outcomes of which docs/FORMAT.md says that nothing was written: the batch can be run again.
NOTHING_WRITTEN: Tuple[Type[BaseException], ...] = (
    OverLimit,
    CommandNotFound,
    UsageError,
    BadBatch,
    ReadFault,
    OutOfMemory,
    BuildFailed,
)
FORKED = "of the process that this one was forked from"


class Here:
    """What is of this process alone: a fork makes both anew."""

    process = object()
    lock = threading.Lock()

    @classmethod
    def mark(cls) -> Tuple[object, int]:
        """What tells this process from others, also from one that was forked without Python's knowledge."""
        return cls.process, os.getpid()

    @classmethod
    def renew(cls) -> None:
        cls.process, cls.lock = object(), threading.Lock()


os.register_at_fork(after_in_child=Here.renew)


class Runs:
    """The runs of one batch, by whatever thread. In a forked process the batch is closed from the start."""

    def __init__(self) -> None:
        self._process = Here.process
        self._closed_by: Optional[str] = None
        self._under_way = 0
        self._has_written = False

    @property
    def closed_by(self) -> Optional[str]:
        """The words of the run that closed the batch; None while it is open."""
        return self._closed_by if self._process is Here.process else FORKED

    def need_open(self) -> None:
        if self.closed_by is not None:
            raise AlreadyRun(f"this batch {self._told()}, and nothing can be added to it: make another Batch")

    def _danger(self) -> str:
        if self.closed_by == FORKED:
            return ", which may run it too"
        return ", and its lanes share a context that one of them seals on. A second run may answer them in another order"

    def _told(self) -> str:
        closed_by = self.closed_by or ""
        return f"is {FORKED}" if closed_by == FORKED else f"was run ({closed_by[:60]})"

    @contextmanager
    def run(self, how: str, may_follow: Callable[[str], bool]) -> Iterator[None]:
        """Counts a run. `may_follow` says whether it may come after the run that closed the batch."""
        self._begin(how, may_follow)
        may_have_written = True
        try:
            yield
        except NOTHING_WRITTEN:
            may_have_written = False
            raise
        finally:
            self._end(may_have_written)

    def _begin(self, how: str, may_follow: Callable[[str], bool]) -> None:
        with Here.lock:
            closed_by = self.closed_by
            if closed_by is not None and not may_follow(closed_by):
                raise AlreadyRun(
                    f"this batch {self._told()}{self._danger()}: one key and nonce could seal two messages. Make another Batch, "
                    "with a fresh seed"
                )
            self._closed_by = closed_by or how
            self._under_way += 1

    def _end(self, may_have_written: bool) -> None:
        """Opens the batch again where none of its runs has written, or may still write."""
        with Here.lock:
            self._under_way -= 1
            self._has_written |= may_have_written
            if not self._under_way and not self._has_written:
                self._closed_by = None
