"""Tags of ChaCha20-Poly1305 over texts of many lengths, by Python's `cryptography` (OpenSSL).

Run: python3 tools/vectors/chacha_lengths.py. It prints the rows of `SEALED` in
crates/chacha_tests/src/chacha_poly_tests.rt: the length of the text in bytes, and the tag.
"""

from cryptography.hazmat.primitives.ciphers.aead import ChaCha20Poly1305

KEY = bytes(range(32))
NONCE = bytes(range(12))
AAD = b"aad"
LENGTHS = (0, 1, 15, 16, 17, 63, 64, 65, 191, 192, 193, 447, 448, 449, 1_048_576)

for length in LENGTHS:
    text = bytes((7 * i + 3) % 256 for i in range(length))
    sealed = ChaCha20Poly1305(KEY).encrypt(NONCE, text, AAD)
    print(length, sealed[-16:].hex())
