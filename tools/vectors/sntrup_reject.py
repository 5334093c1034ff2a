#!/usr/bin/env python3
"""Rejection keys of sntrup761 and sntrup857 (NTRU Prime round 3, Decap), Hash_0(Hash_3(rho) || ct),
for the key of stream 0 of the seed of 32 zero bytes, by the definitions of sntrup.py and hashlib's
SHA-512.

The ciphertexts are that of stream 1 with one bit flipped, and what Hide makes of an r of weight
w - 1 and of one of weight w + 1: ones followed by zeros. There e/g is that r again, and for its
weight alone Decrypt gives w ones and zeros in its place; the hash is right.

    python3 tools/vectors/sntrup_reject.py

It prints the rows of `REJECTED_761` and `REJECTED_857` in crates/lattice_tests/src/sntrup_kem_tests.
"""

import hashlib

from chacha20_words import stream_words
from samples import SETS, short
from sntrup import PUBLISHED, hashed, hide, keygen, rq_encode

SEED = bytes(32)


def rejection_key(rho, ct):
    return hashed(0, hashed(3, rho) + ct)


if __name__ == "__main__":
    for p, of in SETS.items():
        h, f, ginv, rho = keygen(of, stream_words(SEED, 0, 3 * p))
        public = rq_encode(of, h)
        enc = hide(of, short(stream_words(SEED, 1, p), of.w), public, h)
        assert hashlib.sha256(enc).hexdigest() == PUBLISHED[p, 0][2]
        print(f"sntrup{p}")
        for place in (0, len(enc) - 33, len(enc) - 32, len(enc) - 1):
            spoilt = bytearray(enc)
            spoilt[place] ^= 1
            print("bit 0 of byte", place, rejection_key(rho, bytes(spoilt)).hex())
        for weight in (of.w - 1, of.w + 1):
            ones = [1] * weight + [0] * (p - weight)
            print(f"weight {weight}", rejection_key(rho, hide(of, ones, public, h)).hex())
