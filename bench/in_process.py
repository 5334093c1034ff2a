#!/usr/bin/env python3
"""Times calls in this process from Python, beside those of `cryptography` in the same run.

Prints a line for each: what, how many bytes the message has, and microseconds, with a tab between. A time is that of the best
round. The calls: one record sealed with an encapsulation of its own, by `seal` and by a new `Sender`; a record opened; and the
seal of a context that stands. Beside them: what the same call of the library takes with nothing around it but ctypes, HPKE of
`cryptography` over ML-KEM-768, and its AES-256-GCM. All have AES-256-GCM and HKDF-SHA256.
"""
import os
import sys
import time

sys.dont_write_bytecode = True
HOME = os.path.dirname(os.path.dirname(os.path.abspath(__file__)))
sys.path.insert(0, os.path.join(HOME, "python"))
import hpkebatch
from hpkebatch.shared_library import need_library, room

RECORD = 1024
SIZES = (64, 1024, 16_384)
ROUNDS = 250
SECONDS = 0.001  # of a round, at the least: short ones, so that other work beside this spoils few
MANY = 100


def best(work):
    """Microseconds of one call, by the best round."""
    count, took = 1, 0.0
    while took < SECONDS:
        took = timed(work, count)
        count = count if took >= SECONDS else 2 * count
    return min(timed(work, count) for _ in range(ROUNDS)) / count * 1e6


def timed(work, count):
    start = time.perf_counter()
    for _ in range(count):
        work()
    return time.perf_counter() - start


def tell(what, size, work, messages=1):
    print(f"{what}\t{size}\t{best(work) / messages:.2f}", flush=True)


def records():
    pair, text = hpkebatch.generate_key(), os.urandom(RECORD)
    sealed = hpkebatch.seal([text], to=pair.public)

    def of_a_context():
        with hpkebatch.Sender(pair.public) as sender:
            return sender.seal(text)

    tell("keygen", 0, hpkebatch.generate_key)
    tell("record by seal", RECORD, lambda: hpkebatch.seal([text], to=pair.public))
    tell("record by open", RECORD, lambda: hpkebatch.open(sealed, key=pair.secret))
    tell("record by a new Sender", RECORD, of_a_context)


def contexts():
    """A context's seals, and the library's call alone: what the binding adds is the difference."""
    pair, library = hpkebatch.generate_key(), need_library()
    for size in SIZES:
        sender, text = hpkebatch.Sender(pair.public), os.urandom(size)
        tell("context seal", size, lambda: sender.seal(text))
        context, out = sender._context, room(size + 16)
        tell("library call alone", size, lambda: library._seal(context, b"", 0, text, size, out, size + 16))
        texts = [text] * MANY
        tell(f"context seal_many, each of {MANY}", size, lambda: sender.seal_many(texts), MANY)


def cryptography():
    """The peers, where the module is installed in a version that has them."""
    try:
        from cryptography.hazmat.primitives.ciphers.aead import AESGCM
    except ImportError:
        print("bench: cryptography is not installed", file=sys.stderr)
        return
    for size in SIZES:
        cipher, text, nonce = AESGCM(os.urandom(32)), os.urandom(size), bytes(12)
        tell("cryptography AESGCM", size, lambda: cipher.encrypt(nonce, text, b""))
    try:
        from cryptography.hazmat.primitives import hpke
        from cryptography.hazmat.primitives.asymmetric import mlkem
    except ImportError:
        print("bench: this version of cryptography has no post-quantum HPKE", file=sys.stderr)
        return
    key, text = mlkem.MLKEM768PrivateKey.generate(), os.urandom(RECORD)
    suite = hpke.Suite(hpke.KEM.MLKEM768, hpke.KDF.HKDF_SHA256, hpke.AEAD.AES_256_GCM)
    sealed = suite.encrypt(text, key.public_key())
    tell("cryptography HPKE MLKEM768 encrypt", RECORD, lambda: suite.encrypt(text, key.public_key()))
    tell("cryptography HPKE MLKEM768 decrypt", RECORD, lambda: suite.decrypt(sealed, key))


if __name__ == "__main__":
    records()
    contexts()
    cryptography()
