"""Tags of AES-128-GCM over texts of many lengths, by Python's `cryptography` (OpenSSL).

Run: python3 tools/vectors/gcm_lengths.py. It prints the rows of `SEALED` in
crates/hpke_tests/src/aes_gcm_tests.rt: the length of the text in bytes, and the tag.
"""

from cryptography.hazmat.primitives.ciphers.aead import AESGCM

KEY = bytes(range(16))
NONCE = bytes(range(12))
AAD = b"aad"
LENGTHS = (0, 1, 15, 16, 17, 63, 64, 65, 1_048_576)

for length in LENGTHS:
    text = bytes((7 * i + 3) % 256 for i in range(length))
    sealed = AESGCM(KEY).encrypt(NONCE, text, AAD)
    print(length, sealed[-16:].hex())
