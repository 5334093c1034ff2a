#!/usr/bin/env python3
"""A second reader of key files, sealed files and sealed messages, written from docs/FORMAT.md ("Key files and sealed
files") and the standards alone: no code of the package's or the program's.

    tools/reference/sealed.py key FILE...                                  kind, KEM and fingerprint of each
    tools/reference/sealed.py open KEY FILE [INFO [PSK PSK_ID]]            what was sealed: a file's bytes on standard
                                                                           output, or each message's hex in a line
PSK is the name of a file. The KEM and HPKE are those of contexts.py.
"""

import hashlib
import re
import sys

from contexts import KEM_IDS, KEMS, Context

NAMES = {"sntrup761": 761, "sntrup857": 857}
KEY_FILE = re.compile(rb"(hpkebatch (public|secret) key 2: (\w+)\n((?:[0-9a-f]{64}\n)*[0-9a-f]{0,63}\n))sha256 ([0-9a-f]{64})\n")
FILE, MESSAGES = b"hpkebatch sealed 2\n", b"hpkebatch messages 2\n"
CHUNK, CHUNKS_OF_PART = 1 << 20, 4


class Refused(Exception):
    pass


def need(holds, why):
    if not holds:
        raise Refused(why)


def read_key(data):
    """Kind, number of the set, and the key."""
    found = KEY_FILE.fullmatch(data)
    need(found, "no key file")
    body, kind, name, digits, checksum = found.groups()
    need(hashlib.sha256(body).hexdigest() == checksum.decode(), "checksum")
    need(name.decode() in NAMES, "KEM")
    p, key = NAMES[name.decode()], bytes.fromhex(digits.replace(b"\n", b"").decode())
    need(len(key) == (KEMS[p].public if kind == b"public" else KEMS[p].secret), "size")
    return kind.decode(), p, key


def public_of(p, secret):
    return secret[2 * KEMS[p].small :][: KEMS[p].public]


class Bytes:
    def __init__(self, data):
        self.data, self.at = data, 0

    def take(self, size):
        piece = self.data[self.at : self.at + size]
        need(len(piece) == size, "cut")
        self.at += size
        return piece

    def number(self, size):
        return int.from_bytes(self.take(size), "big")


def counts_of_file(size):
    """How many chunks each part of a file has, and how long each is."""
    sizes = [min(CHUNK, size - at) for at in range(0, size, CHUNK)]
    return [sizes[at : at + CHUNKS_OF_PART] for at in range(0, len(sizes), CHUNKS_OF_PART)] or [[]]


def open_sealed(data, p, secret, info=b"", psk=b"", psk_id=b""):
    """The magic, and the messages or chunks; Refused where anything isn't as it was sealed."""
    source = Bytes(data)
    magic = FILE if data.startswith(FILE) else MESSAGES
    need(source.take(len(magic)) == magic, "magic")
    kem, kdf, aead = (source.number(2) for _ in range(3))
    need(kem == KEM_IDS[p] and kdf in (1, 2, 3) and aead in (1, 2), "suite")
    need(source.take(8) == hashlib.sha256(public_of(p, secret)).digest()[:8], "recipient")
    source.take(32)
    if magic == FILE:
        parts = counts_of_file(source.number(8))
    else:
        parts = [[None] * source.number(4) for _ in range(source.number(4))]
    need(parts, "no part")
    head = hashlib.sha256(data[: source.at]).digest()

    suite = {"kdf": kdf, "psk": psk, "psk_id": psk_id, "mode": "psk" if psk else "base", "limit": 1}
    shared = KEMS[p].decap(source.take(KEMS[p].enc), secret)
    root = Context("recipient", kem, shared, {**suite, "aead": 65535, "info": magic + info})
    part_secret = root.export(b"hpkebatch parts 2", 32)

    suite = {"kdf": kdf, "aead": aead, "psk": b"", "psk_id": b"", "mode": "base"}
    texts = []
    for place, sizes in enumerate(parts):
        part_info = b"hpkebatch part 2" + head + place.to_bytes(8, "big")
        context = Context("recipient", kem, part_secret, {**suite, "info": part_info, "limit": len(sizes) + 1})
        for number, size in enumerate(sizes):
            text = context.open(number, b"", source.take(source.number(4) if size is None else size + 16))
            need(text is not None, f"message {number} of part {place}")
            texts.append(text)
        need(context.open(len(sizes), b"end", source.take(16)) == b"", f"end mark of part {place}")
    need(source.at == len(data), "bytes behind the end")
    return magic, texts


def read(path):
    with open(path, "rb") as file:
        return file.read()


def main(word, *given):
    if word == "key":
        for path in given:
            kind, p, key = read_key(read(path))
            public = key if kind == "public" else public_of(p, key)
            print(path, kind, f"sntrup{p}", hashlib.sha256(public).hexdigest()[:32])
        return
    kind, p, secret = read_key(read(given[0]))
    need(kind == "secret", "a secret key opens")
    info = given[2].encode() if len(given) > 2 else b""
    psk = (read(given[3]), given[4].encode()) if len(given) > 4 else (b"", b"")
    magic, texts = open_sealed(read(given[1]), p, secret, info, *psk)
    sys.stdout.buffer.write(b"".join(texts if magic == FILE else [text.hex().encode() + b"\n" for text in texts]))


if __name__ == "__main__":
    try:
        main(*sys.argv[1:])
    except Refused as fault:
        sys.exit(f"sealed.py: refused: {fault}")
