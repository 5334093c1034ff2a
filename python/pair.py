#!/usr/bin/env python3
"""Makes a pair of keys, seals a text to the public one, and opens it with the secret one, in this process.

    pair.py keygen                     prints the public key and the secret key, in hex
    pair.py seal PUBLIC_HEX_FILE       reads a text, and prints the encapsulation and the ciphertext, in hex
    pair.py open SECRET_HEX_FILE       reads these two lines, and writes the text
"""
import sys

import hpkebatch

SUITE = {"kdf": hpkebatch.Kdf.HKDF_SHA256, "aead": hpkebatch.Aead.AES_128_GCM, "info": b"pair"}


def key_in(path):
    with open(path) as file:
        return bytes.fromhex(file.read())


def keygen():
    pair = hpkebatch.generate_key()
    print(bytes(pair.public).hex(), bytes(pair.secret).hex(), sep="\n")


def seal(path):
    with hpkebatch.Sender(key_in(path), **SUITE) as sender:
        print(sender.enc.hex(), sender.seal(sys.stdin.buffer.read()).hex(), sep="\n")


def unseal(path):
    enc, ct = map(bytes.fromhex, sys.stdin.read().split())
    with hpkebatch.Recipient(enc, key_in(path), **SUITE) as recipient:
        sys.stdout.buffer.write(recipient.open(ct))


def main(words):
    if words == ["keygen"]:
        keygen()
    elif len(words) == 2 and words[0] in ("seal", "open"):
        (seal if words[0] == "seal" else unseal)(words[1])
    else:
        sys.exit("pair: its words are keygen, seal PUBLIC_HEX_FILE or open SECRET_HEX_FILE")


if __name__ == "__main__":
    try:
        main(sys.argv[1:])
    except (OSError, ValueError, hpkebatch.HpkeBatchError) as fault:
        sys.exit(f"pair: {fault}")
