"""The lines of a text, found once and read where they are asked for: replies are long, and most of their lines are read once."""

from __future__ import annotations

from binascii import unhexlify
from contextlib import suppress
from mmap import mmap
from typing import List, Union

from .command import Text
from .errors import ReplyError


class Lines:
    """The lines of a whole reply, numbered from 0, without their line feeds. A line that isn't there is empty."""

    def __init__(self, text: Text) -> None:
        self.text = text
        self._starts = [0]  # where each line begins, and one behind it, as far as was looked
        if text[-5:] != b"\nend\n":
            raise ReplyError(len(self) + 1, "the reply is cut: its last line isn't `end`")

    def __len__(self) -> int:
        self._look(len(self.text))
        return len(self._starts) - 1

    def __getitem__(self, at: int) -> bytes:
        self._look(at)
        starts = self._starts
        return self.text[starts[at] : starts[at + 1] - 1] if 0 <= at < len(starts) - 1 else b""

    def close(self) -> None:
        """Lets go of the text: no line can be read any more."""
        if isinstance(self.text, mmap):
            with suppress(BufferError):  # where a fault still shows a line of it
                self.text.close()
        self.text, self._starts = b"", [0]

    def _look(self, at: int) -> None:
        """Finds the lines up to this one, where there are so many."""
        starts, find = self._starts, self.text.find
        end = find(b"\n", starts[-1]) if len(starts) < at + 2 else -1
        while end >= 0:
            starts.append(end + 1)
            end = find(b"\n", end + 1) if len(starts) < at + 2 else -1

    def expect(self, at: int, line: bytes) -> None:
        if self[at] != line:
            raise ReplyError(at + 1, f"a line `{line.decode()}` should stand here")

    def texts(self, first: int, end: int, form: bytes) -> Union[List[bytes], int]:
        """The bytes of lines that are numbered from 0 on, or the place of the first line that isn't of this form."""
        self._look(end)
        text, starts, texts = self.text, self._starts, []
        view = memoryview(text)  # of which a line is no copy
        for number in range(end - first):
            front = form % number
            start = starts[first + number]
            middle = start + len(front)
            if text[start:middle] != front:
                return number
            digits = view[middle : starts[first + number + 1] - 1]
            texts.append(b"" if digits == b"-" else unhexlify(digits))
        return texts
