#!/usr/bin/env python3
"""Whole exchanges of Oblivious HTTP (RFC 9458, 4), by hashlib, hmac, Python's `cryptography` and the
messages and the KEM of tools/reference.

Run: python3 tools/vectors/ohttp_capsules.py. It first makes the exchange of RFC 9458, appendix A, and
stops where a byte differs from those published. Then it prints the rows of `EXCHANGES_761` and
`EXCHANGES_857` in crates/capsule_tests/src/ohttp_capsule_tests/exchanges.rt: key pairs of stream 0 of
the seed of 32 zero bytes, r of stream 1, key identifier 7, a response nonce of bytes aa; SHA-256 of
the request and of the response.
"""

import hashlib
import os
import sys

from cryptography.hazmat.primitives.asymmetric.x25519 import X25519PrivateKey
from cryptography.hazmat.primitives.serialization import Encoding, PublicFormat

sys.dont_write_bytecode = True
sys.path.insert(0, os.path.join(os.path.dirname(os.path.abspath(__file__)), "..", "reference"))
from capsules import context_of, entropy, header, response_cipher  # noqa: E402
from contexts import KEM_IDS, KEMS, hkdf_expand, hkdf_extract, i2osp, words_of  # noqa: E402

QUESTION = b"Beauty is truth, truth beauty"
REPLY = b"Ode on a Grecian Urn"


def request(of, enc, text, key_id, kem, kdf, aead):
    return header(key_id, kem, kdf, aead) + enc + of.seal(0, b"", text)


def response(of, enc, nonce, text, kdf, aead):
    cipher, of_cipher = response_cipher(of, enc, nonce, kdf, aead)
    return nonce + cipher.encrypt(of_cipher, text, b"")


def published():
    """RFC 9458, appendix A: DHKEM(X25519, HKDF-SHA256), HKDF-SHA256, AES-128-GCM."""
    own = X25519PrivateKey.from_private_bytes(
        bytes.fromhex("3c168975674b2fa8e465970b79c8dcf09f1c741626480bd4c6162fc5b6a98e1a")
    ).public_key()
    ephemeral = X25519PrivateKey.from_private_bytes(
        bytes.fromhex("bc51d5e930bda26589890ac7032f70ad12e4ecb37abb1b65b1256c9c48999c73")
    )
    enc, pk = (key.public_bytes(Encoding.Raw, PublicFormat.Raw) for key in (ephemeral.public_key(), own))
    labels = b"HPKE-v1" + b"KEM" + i2osp(0x0020, 2)
    prk = hkdf_extract("sha256", b"", labels + b"eae_prk" + ephemeral.exchange(own))
    shared_secret = hkdf_expand("sha256", prk, i2osp(32, 2) + labels + b"shared_secret" + enc + pk, 32)
    of = context_of(shared_secret, 1, 0x0020, 1, 1)
    text = bytes.fromhex("00034745540568747470730b6578616d706c652e636f6d012f")
    assert request(of, enc, text, 1, 0x0020, 1, 1).hex() == (
        "010020000100014b28f881333e7c164ffc499ad9796f877f4e1051ee6d31bad19dec96c208b4726374e469135906992e"
        "1268c594d2a10c695d858c40a026e7965e7d86b83dd440b2c0185204b4d63525"
    )
    nonce = bytes.fromhex("c789e7151fcba46158ca84b04464910d")
    assert response(of, enc, nonce, bytes.fromhex("0140c8"), 1, 1).hex() == (
        "c789e7151fcba46158ca84b04464910d86f9013e404feea014e7be4a441f234f857fbd"
    )
    print("RFC 9458, appendix A: shared_secret", shared_secret.hex())


published()
for p in (761, 857):
    public, _secret = KEMS[p].generate(words_of(bytes(32), 0))
    enc, shared_secret = KEMS[p].encap(words_of(bytes(32), 1), public)
    for kdf in (1, 2, 3):
        for aead in (1, 2):
            of = context_of(shared_secret, 7, KEM_IDS[p], kdf, aead)
            asked = request(of, enc, QUESTION, 7, KEM_IDS[p], kdf, aead)
            answered = response(of, enc, b"\xaa" * entropy(aead), REPLY, kdf, aead)
            print(p, kdf, aead, len(asked), *(hashlib.sha256(x).hexdigest() for x in (asked, answered)))
