#!/usr/bin/env python3
"""Small and short polynomials of Streamlined NTRU Prime (NTRU Prime round 3, Small and Short) from
the words of chacha20_words.py, by the reference's masks and shifts.

    python3 tools/vectors/samples.py SEED_HEX STREAM P

It prints, for each of the two, the first 8 coefficients, the sum of k times coefficient k, and the
weight, as in `SAMPLES_761` and `SAMPLES_857` of crates/lattice_tests/src/rand_words_tests.rt.
"""

import sys
from typing import NamedTuple

from chacha20_words import check, stream_words


class Set(NamedTuple):
    p: int
    q: int
    w: int


SETS = {761: Set(761, 4591, 286), 857: Set(857, 5167, 322)}


def small(words):
    return [(((word & 0x3FFFFFFF) * 3) >> 30) - 1 for word in words]


def short(words, w):
    marked = [word & 0xFFFFFFFE for word in words[:w]]
    marked += [(word & 0xFFFFFFFD) | 1 for word in words[w:]]
    return [(word & 3) - 1 for word in sorted(marked)]


if __name__ == "__main__":
    check()
    of = SETS[int(sys.argv[3])]
    words = stream_words(bytes.fromhex(sys.argv[1]), int(sys.argv[2]), of.p)
    for name, list_of in (("small", small(words)), ("short", short(words, of.w))):
        weight = sum(1 for number in list_of if number)
        print(name, list_of[:8], sum(k * number for k, number in enumerate(list_of)), weight)
