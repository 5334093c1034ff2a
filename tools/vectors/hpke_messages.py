#!/usr/bin/env python3
"""Messages of HPKE contexts (RFC 9180, 5.2), by Python's `cryptography` (OpenSSL).

Run: python3 tools/vectors/hpke_messages.py. It prints the rows of `A_1_1` and
`A_6_1` in crates/hpke_tests/src/hpke_context_tests.rt: the section of RFC 9180 whose key and
base_nonce are taken, the sequence number, the aad and the ciphertext. Text, aad and numbers are those of the appendix's tables.
"""

from cryptography.hazmat.primitives.ciphers.aead import AESGCM

SECRETS = (
    ("A.1.1", "4531685d41d65f03dc48f6b8302c05b0", "56d890e5accaaf011cff4b7d"),
    (
        "A.6.1",
        "751e346ce8f0ddb2305c8a2a85c70d5cf559c53093656be636b9406d4d7d1b70",
        "55ff7a7d739c69f44b25447b",
    ),
)
TEXT = b"Beauty is truth, truth beauty"
NUMBERS = (0, 1, 2, 4, 255, 256)

for section, key, base_nonce in SECRETS:
    for number in NUMBERS:
        nonce = int(base_nonce, 16) ^ number
        aad = b"Count-%d" % number
        sealed = AESGCM(bytes.fromhex(key)).encrypt(nonce.to_bytes(12, "big"), TEXT, aad)
        print(section, number, aad.hex(), sealed.hex())
