#!/usr/bin/env python3
"""Words of ChaCha20 streams, by the block function of RFC 8439, 2.1 to 2.3, with the counter and the
nonce of the original ChaCha (D. J. Bernstein, "ChaCha, a variant of Salsa20", 2008), of 64 bits each.

Before it prints, it checks itself on RFC 8439, 2.3.2. There the last four words of the state are a
counter of 32 bits and a nonce of 96 bits; here they are the counter's and the stream's halves, low
half first.

    python3 tools/vectors/chacha20_words.py SEED_HEX STREAM COUNT
"""

import struct
import sys

MASK = 0xFFFFFFFF
CONSTANTS = [0x61707865, 0x3320646E, 0x79622D32, 0x6B206574]  # "expand 32-byte k"


def rotate_left(word, count):
    return ((word << count) | (word >> (32 - count))) & MASK


def quarter_round(state, a, b, c, d):
    for first, second, third, count in ((a, b, d, 16), (c, d, b, 12), (a, b, d, 8), (c, d, b, 7)):
        state[first] = (state[first] + state[second]) & MASK
        state[third] = rotate_left(state[third] ^ state[first], count)


def block(key, last_four):
    """The 16 words of a block: 20 rounds, and the state that they began with added."""
    start = CONSTANTS + list(struct.unpack("<8I", key)) + last_four
    state = list(start)
    for _ in range(10):
        for k in range(4):
            quarter_round(state, k, 4 + k, 8 + k, 12 + k)
        for k in range(4):
            quarter_round(state, k, 4 + (k + 1) % 4, 8 + (k + 2) % 4, 12 + (k + 3) % 4)
    return [(x + y) & MASK for x, y in zip(state, start)]


def stream_words(seed, stream, count):
    words = []
    while len(words) < count:
        counter = len(words) // 16
        words += block(seed, [counter & MASK, counter >> 32, stream & MASK, stream >> 32])
    return words[:count]


def check():
    nonce = struct.unpack("<3I", bytes.fromhex("000000090000004a00000000"))
    got = block(bytes(range(32)), [1, *nonce])
    want = [
        0xE4E7F110, 0x15593BD1, 0x1FDD0F50, 0xC47120A3,
        0xC7F4D1C7, 0x0368C033, 0x9AAA2204, 0x4E6CD4C3,
        0x466482D2, 0x09AA9F07, 0x05D7C214, 0xA2028BD9,
        0xD19C12B5, 0xB94E16DE, 0xE883D0CB, 0x4E3C50A2,
    ]
    assert got == want, "RFC 8439, 2.3.2"


if __name__ == "__main__":
    check()
    for word in stream_words(bytes.fromhex(sys.argv[1]), int(sys.argv[2]), int(sys.argv[3])):
        print(f"0x{word:08x}")
