"""How far long work is, on standard error where that is a terminal."""

from __future__ import annotations

import sys
import time

PATIENCE = 1.0  # so many seconds pass before the first line
PAUSE = 0.2
WIDTH = 30


class Progress:
    """A bar that is drawn over itself."""

    def __init__(self, what: str, total: int) -> None:
        self.what, self.total, self.done = what, total, 0
        self.is_terminal = sys.stderr.isatty()
        self.next = time.monotonic() + PATIENCE
        self.is_drawn = False

    def __call__(self, more: int) -> None:
        self.done += more
        if not self.is_terminal or time.monotonic() < self.next:
            return
        self.next = time.monotonic() + PAUSE
        total = max(self.done, self.total, 1)
        filled = WIDTH * self.done // total
        bar = "#" * filled + "." * (WIDTH - filled)
        line = f"\r{self.what} [{bar}] {self.done >> 20:,} of {total >> 20:,} MiB"
        print(line, end="", file=sys.stderr, flush=True)
        self.is_drawn = True

    def end(self) -> None:
        """Takes the bar away."""
        if self.is_drawn:
            print("\r\x1b[K", end="", file=sys.stderr, flush=True)
            self.is_drawn = False
