#!/usr/bin/env python3
"""Keys and ciphertexts of sntrup761 and sntrup857 (NTRU Prime round 3) from the words of
chacha20_words.py: key generation from stream 0 of a seed, and encryption of the short polynomial of
stream 1.

Inverses are found by the extended Euclid, and products by Python's integers. The bytes of the
public key, the secret key and the encapsulation are compared by SHA-256 with those that two
implementations in C gave for the same words: that of OpenSSH 9.2p1 for sntrup761, and libntruprime
20241021 for sntrup857.

    python3 tools/vectors/sntrup.py

It prints the rows of `KEYS_761` and `KEYS_857` in crates/lattice_tests/src/sntrup_core_tests.rt: for each of h, f, 1/g, r and the
ciphertext, the first 4 coefficients and the sum of k times coefficient k.
"""

import hashlib
import struct

from chacha20_words import check, stream_words
from samples import SETS, short, small

# SHA-256 of the public key, the secret key and the encapsulation, by p and the seed's bytes.
PUBLISHED = {
    (761, 0): (
        "e9cfcf9d46e1480b876470c04bff9bd008c180b2e95373cc6d4af86ac566589f",
        "0624f159ae7e906ebc8d827e97e4f554a97dfe262f4c9cbb38343377eea7de01",
        "52313a15b7ce1cfcb62fefe274aca188ea30729bf63763f19f8b026354b60cbe",
    ),
    (761, 1): (
        "07a17a7196060aa669f768350dca508ba3e7d8f4c0dcc465c81c79f3b8d8af4d",
        "636d64f2db5bb549e78700801035fbe7028d53ca1562a81bcb2c9ba2b156f0c4",
        "6d31555e98242abd06172833ca80ef35ffe4d12a1adf0d1409f61abd865fc964",
    ),
    (761, 2): (
        "8387862d8ecbde5042388ea9116b55bb5ff726d5468230b6070322cd996683c5",
        "9585ffb27b5f20ea8c6fa882e3a1fcbff5ff2152eab0b32b257ad2ff8e2a4fc4",
        "4c9d5324cdfb4636a20f412352eba0071fa3cd0730330ef91c134c324d6fe475",
    ),
    (857, 0): (
        "5802250fb3ad00451bcf7333cf40e823d08c67ce687b56f150907e9452429f51",
        "9b33a3956ee0536794b3a1e4a7b71528df39d0f5a6a0bef852958bd74f71cc2a",
        "f9220c2c4edd31b35b67e808f91a156e93f5568fca7c4818ea48985c8b09c3d6",
    ),
    (857, 1): (
        "ae1f805d3c94652e1d52353d4fcd62cf7d2aa5c4fc439ab3b9e241a79b7e49f1",
        "4c8aa3dc09b177bc1c40510c90d554e8d8d2b82be7c7e21bc1817c769f07a0ce",
        "5864abee9bb60c0996edd9089de475c0ab778336deeff5a46ef7f06901f568fc",
    ),
    (857, 2): (
        "6dd7dd9bd8c8ff8395838eb4f12274ee9969c3ddbc3dc314c90a445b03efb131",
        "b3698c612af6636ad798a007e90367809f86a8ada294b514d453146edd4c3f20",
        "bb9f9efd353d6f8c37373bb64478a81698db527c1fa18467c75a140682937cca",
    ),
}


def centred(number, modulus):
    half = (modulus - 1) // 2
    return (number + half) % modulus - half


def product(modulus, a, b):
    """By one product of long integers: coefficient k stands at bit 64 k, raised by an offset."""
    p = len(a)
    raised = [sum(x % modulus << 64 * k for k, x in enumerate(list_of)) for list_of in (a, b)]
    whole = raised[0] * raised[1]
    sums = [whole >> 64 * k & (1 << 64) - 1 for k in range(2 * p)]
    wrapped = [sums[k] + sums[p + k] + (sums[p + k - 1] if k else 0) for k in range(p)]
    return [centred(x, modulus) for x in wrapped]


def inverse(modulus, a):
    """By the extended Euclid of x^p - x - 1 and a; None where they have a common factor."""
    p = len(a)
    r0 = [-1 % modulus, -1 % modulus] + [0] * (p - 2) + [1]
    r1 = [x % modulus for x in a]
    t0, t1 = [], [1]
    while True:
        while r1 and r1[-1] == 0:
            r1.pop()
        if not r1:
            return None
        if len(r1) == 1:
            scale = pow(r1[0], -1, modulus)
            full = [x * scale % modulus for x in t1] + [0] * p
            assert not any(full[p:])
            return [centred(x, modulus) for x in full[:p]]
        lead = pow(r1[-1], -1, modulus)
        while len(r0) >= len(r1):
            factor, shift = r0[-1] * lead % modulus, len(r0) - len(r1)
            if factor:
                for k, x in enumerate(r1):
                    r0[shift + k] = (r0[shift + k] - factor * x) % modulus
                t0 += [0] * (shift + len(t1) - len(t0))
                for k, x in enumerate(t1):
                    t0[shift + k] = (t0[shift + k] - factor * x) % modulus
            r0.pop()
        r0, r1, t0, t1 = r1, r0, t1, t0


def rho_of(of, words):
    """As many bytes as the small coding has, of the next words, each its low byte first."""
    size = (of.p + 3) // 4
    count = (size + 3) // 4
    return struct.pack(f"<{count}I", *words[:count])[:size]


def keygen(of, words):
    p = of.p
    for j in range(64):
        g = small(words[j * p : (j + 1) * p])
        ginv = inverse(3, g)
        if ginv is not None:
            break
    f = short(words[(j + 1) * p : (j + 2) * p], of.w)
    h = product(of.q, inverse(of.q, [3 * x for x in f]), g)
    return h, f, ginv, rho_of(of, words[(j + 2) * p :])


def encrypt(of, r, h):
    return [x - centred(x, 3) for x in product(of.q, h, r)]


def encode(digits, radices):
    """Encode(R, M) of the standard."""
    if len(digits) == 1:
        written, r, m = [], digits[0], radices[0]
        while m > 1:
            written.append(r % 256)
            r, m = r // 256, (m + 255) // 256
        return bytes(written)
    written, next_digits, next_radices = [], [], []
    for k in range(0, len(digits) - 1, 2):
        r, m = digits[k] + digits[k + 1] * radices[k], radices[k] * radices[k + 1]
        while m >= 16384:
            written.append(r % 256)
            r, m = r // 256, (m + 255) // 256
        next_digits.append(r)
        next_radices.append(m)
    if len(digits) % 2:
        next_digits.append(digits[-1])
        next_radices.append(radices[-1])
    return bytes(written) + encode(next_digits, next_radices)


def small_encode(a):
    digits = [x + 1 for x in a] + [0] * (-len(a) % 4)
    return bytes(sum(digits[k + i] << 2 * i for i in range(4)) for k in range(0, len(digits), 4))


def rq_encode(of, a):
    return encode([x + (of.q - 1) // 2 for x in a], [of.q] * of.p)


def rounded_encode(of, a):
    return encode([(x + (of.q - 1) // 2) // 3 for x in a], [(of.q - 1) // 3 + 1] * of.p)


def hashed(prefix, data):
    return hashlib.sha512(bytes([prefix]) + data).digest()[:32]


def hide(of, r, public, h):
    confirm = hashed(2, hashed(3, small_encode(r)) + hashed(4, public))
    return rounded_encode(of, encrypt(of, r, h)) + confirm


def compare(of, byte, key, r):
    h, f, ginv, rho = key
    public = rq_encode(of, h)
    secret = small_encode(f) + small_encode(ginv) + public + rho + hashed(4, public)
    made = (public, secret, hide(of, r, public, h))
    got = tuple(hashlib.sha256(data).hexdigest() for data in made)
    assert got == PUBLISHED[of.p, byte], "the implementations in C"


if __name__ == "__main__":
    check()
    for p, byte in PUBLISHED:
        of, seed = SETS[p], bytes([byte]) * 32
        key = keygen(of, stream_words(seed, 0, 3 * p))
        r = short(stream_words(seed, 1, p), of.w)
        compare(of, byte, key, r)
        print(f"sntrup{p}, seed {byte:02x}")
        for name, list_of in zip(("h", "f", "1/g", "r", "c"), (*key[:3], r, encrypt(of, r, key[0]))):
            print(name, list_of[:4], sum(k * x for k, x in enumerate(list_of)))
