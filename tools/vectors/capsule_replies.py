#!/usr/bin/env python3
"""Replies to batches of capsules, by tools/reference/capsules.py (hashlib, hmac, Python's `cryptography`).

Run: python3 tools/vectors/capsule_replies.py [large]. It prints the rows of `REPLIES` in
crates/capsule_tests/src/whole_batches.rt, each the SHA-256 of the whole reply text; with `large` that of the batch
with 256 lines of each kind and a text of 1,048,576 bytes.
"""

import hashlib
import os
import sys

sys.path.insert(0, os.path.join(os.path.dirname(os.path.abspath(__file__)), "..", "reference"))
from capsules import answer_capsules  # noqa: E402

QUESTION, REPLY = b"Beauty is truth, truth beauty".hex(), b"Ode on a Grecian Urn".hex()
NONCE, LONG = "aa" * 16, "aa" * 32
ASK = f"ask 0 7 1 1 {QUESTION}"
ANSWER = f"answer 0 7 @0 {NONCE} {REPLY}"


def text_of(key, lines):
    return "".join(f"{line}\n" for line in ["hpkebatch 2", "rand " + "00" * 32, key, *lines, "end"])


def reply(key, lines):
    text, status = answer_capsules(text_of(key, lines).encode())
    assert status == 0, text
    return text


RESPONSE = reply("keygen", [ASK, ANSWER]).splitlines()[3].split()[2]
CHANGED = RESPONSE[:40] + f"{int(RESPONSE[40], 16) ^ 1:x}" + RESPONSE[41:]
ROWS = [
    ("keygen", "a whole exchange", [ASK, ANSWER, "take 0 @0"]),
    ("keygen857", "a whole exchange", [ASK, ANSWER, "take 0 @0"]),
    ("keygen", "texts of no bytes", ["ask 0 7 3 2 -", f"answer 0 7 @0 {LONG} -", "take 0 @0"]),
    ("keygen857", "texts of no bytes", ["ask 0 7 3 2 -", f"answer 0 7 @0 {LONG} -", "take 0 @0"]),
    ("keygen", "a nonce of 15 bytes", [ASK, f"answer 0 7 @0 {NONCE[2:]} {REPLY}", "take 0 @0"]),
    ("keygen", "another identifier", [ASK, f"answer 0 8 @0 {NONCE} {REPLY}", "take 0 @0"]),
    ("keygen", "a request of one byte", [ASK, f"answer 0 7 00 {NONCE} -", "take 0 @0"]),
    ("keygen", "a response of zero bytes", [ASK, ANSWER, f"take 0 {'00' * 32}"]),
    ("keygen", "an ask that isn't there, and one byte", [ASK, ANSWER, "take 5 00", "take 0 00"]),
    (
        "keygen",
        "a response cut, changed and of another ask",
        [ASK, ASK, ANSWER, f"take 0 {RESPONSE[:-2]}", f"take 0 {CHANGED}", "take 1 @0", f"take 0 {RESPONSE}"],
    ),
    (
        "keygen",
        "lines that are named too early",
        [ANSWER, "take 0 @0", ASK, "take 0 @0", ANSWER, "take 0 @0", "take 0 @1", "take 0 @2"],
    ),
    ("keygen", "a key that isn't there", ["ask 1 7 1 1 -", f"answer 1 7 @0 {NONCE} -", ANSWER, "take 0 @0"]),
]


def large():
    text = "ab" * 1_048_576
    lines = [f"ask 0 7 1 1 {text}", *["ask 0 7 1 1 -"] * 255, f"answer 0 7 @0 {NONCE} {text}"]
    lines += [f"answer 0 7 @{k} {NONCE} -" for k in range(1, 256)]
    return reply("keygen", lines + [f"take {k} @{k}" for k in range(256)])


def digest(text):
    return hashlib.sha256(text.encode()).hexdigest()


if sys.argv[1:] == ["large"]:
    print(digest(large()))
else:
    for key, what, lines in ROWS:
        text = reply(key, lines)
        print(f"{what}, {key}", digest(text))
        for line in lines:
            print("   ", line)
        print("   ", *[line[:60] for line in text.splitlines()[2:]], sep="\n    ")
