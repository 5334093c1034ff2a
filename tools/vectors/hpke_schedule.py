#!/usr/bin/env python3
"""HPKE's key schedule and exports (RFC 9180, 5.1 and 5.3), over Python's own hmac.

An independent program for test vectors. It prints one line for each value:

    hpke_schedule.py KEM_ID KDF_ID AEAD_ID MODE SHARED_SECRET INFO [PSK PSK_ID]

The numbers are those of RFC 9180, 7; MODE is 0 or 1; the rest is hex, '-' for no bytes. The exports
are of 32 bytes, for the exporter contexts of RFC 9180's appendix A: none, 00 and "TestContext".
"""
import hmac
import sys

HASHES = {1: ("sha256", 32), 2: ("sha384", 48), 3: ("sha512", 64)}
KEY_SIZES = {1: 16, 2: 32, 3: 32, 0xFFFF: 0}
EXPORTER_CONTEXTS = (b"", b"\x00", b"TestContext")


class Suite:
    def __init__(self, kem, kdf, aead):
        self.hash, self.nh = HASHES[kdf]
        self.nk = KEY_SIZES[aead]
        self.id = b"HPKE" + b"".join(number.to_bytes(2, "big") for number in (kem, kdf, aead))

    def extract(self, salt, ikm):
        return hmac.new(salt, ikm, self.hash).digest()

    def expand(self, prk, info, length):
        block, output, counter = b"", b"", 0
        while len(output) < length:
            counter += 1
            block = hmac.new(prk, block + info + bytes([counter]), self.hash).digest()
            output += block
        return output[:length]

    def labeled_extract(self, salt, label, ikm):
        return self.extract(salt, b"HPKE-v1" + self.id + label + ikm)

    def labeled_expand(self, prk, label, info, length):
        labeled = length.to_bytes(2, "big") + b"HPKE-v1" + self.id + label + info
        return self.expand(prk, labeled, length)


def values(suite, mode, shared_secret, info, psk, psk_id):
    psk_id_hash = suite.labeled_extract(b"", b"psk_id_hash", psk_id)
    info_hash = suite.labeled_extract(b"", b"info_hash", info)
    context = bytes([mode]) + psk_id_hash + info_hash
    secret = suite.labeled_extract(shared_secret, b"secret", psk)
    exporter_secret = suite.labeled_expand(secret, b"exp", context, suite.nh)
    yield "key_schedule_context", context
    yield "secret", secret
    if suite.nk:
        yield "key", suite.labeled_expand(secret, b"key", context, suite.nk)
        yield "base_nonce", suite.labeled_expand(secret, b"base_nonce", context, 12)
    yield "exporter_secret", exporter_secret
    for exporter_context in EXPORTER_CONTEXTS:
        exported = suite.labeled_expand(exporter_secret, b"sec", exporter_context, 32)
        yield f"export {exporter_context.hex() or '-'}", exported


def main(words):
    kem, kdf, aead, mode = (int(word) for word in words[:4])
    byte_strings = [b"" if word == "-" else bytes.fromhex(word) for word in words[4:]]
    shared_secret, info, psk, psk_id = byte_strings + [b""] * (4 - len(byte_strings))
    for name, value in values(Suite(kem, kdf, aead), mode, shared_secret, info, psk, psk_id):
        print(f"{name}: {value.hex()}")


if __name__ == "__main__":
    main(sys.argv[1:])
