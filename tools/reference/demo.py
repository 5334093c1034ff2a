#!/usr/bin/env python3
"""What `hpkebatch demo SEED MESSAGES LANES` has to print, by the second hpkebatch of this folder.

    tools/reference/demo.py SEED MESSAGES LANES

It makes the text of the first batch, sets its contexts up and seals at the numbers 0 to MESSAGES - 1; then
it makes the text of the second batch, answers that, and counts what was opened.
"""

import hashlib
import sys

from batches import read_batch
from contexts import set_up
from hpkebatch import answer

TEXT = bytes(range(64))
PART = 256


def front(seed):
    lines = ["send 1 1 0 base 64656d6f - - 65536", "recv 1 1 0 @0 base 64656d6f - - 65536"]
    return ["hpkebatch 1", f"rand {seed.to_bytes(8, 'big').hex()}{'00' * 24}", "keygen", *lines]


def text_of(lines):
    return "".join(f"{line}\n" for line in [*lines, "end"]).encode()


def sealing_text(seed, messages, lanes):
    lines = front(seed)
    for lane in range(lanes):
        lines += ["lane"] + [f"seal 0 - {TEXT.hex()}"] * len(range(lane, messages, lanes))
    return text_of(lines)


def opening_text(seed, sealed):
    lines = [*front(seed), "lane"]
    for start in range(0, len(sealed), PART):
        lines.append("unsealall 1" + "".join(f" - {ct.hex()}" for ct in sealed[start : start + PART]))
    return text_of(lines)


def demo(seed, messages, lanes):
    _, contexts = set_up(read_batch(sealing_text(seed, messages, lanes)))
    if None in contexts:
        return 0, b""
    sealed = [contexts[0].seal(number, b"", TEXT) for number in range(messages)]
    reply, _ = answer(opening_text(seed, sealed), [])
    opened = [line.split() for line in reply.splitlines() if line.startswith("opened ")]
    return sum(words[2] == TEXT.hex() for words in opened), b"".join(sealed)


def report(seed, messages, lanes):
    opened, sealed = demo(seed, messages, lanes)
    counts = f"messages {messages} opened {opened} refused {messages - opened}"
    return f"{counts}\nsha256 {hashlib.sha256(sealed).hexdigest()}\n"


if __name__ == "__main__":
    print(report(*map(int, sys.argv[1:])), end="")
