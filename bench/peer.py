#!/usr/bin/env python3
"""A peer for the benchmark: answers a batch with python's hashlib, hmac and `cryptography`.

It reads well-formed batches of version 1 with `share` lines in mode base, refuses no call, serves the
lanes one after another, and writes the reply text. It shares no code with the program: KeySchedule, the contexts and Export are RFC 9180,
5.1 to 5.3, written over RFC 5869. AES-GCM is that of `cryptography`, which is asked for only where a
message is sealed or opened.
"""
import hashlib
import hmac
import sys

HASHES = {1: "sha256", 2: "sha384", 3: "sha512"}


def extract(name, salt, ikm):
    return hmac.digest(salt or bytes(hashlib.new(name).digest_size), ikm, name)


def expand(name, prk, info, size):
    blocks, block = [], b""
    for number in range(1, 1 + -(-size // hashlib.new(name).digest_size)):
        block = hmac.digest(prk, block + info + bytes([number]), name)
        blocks.append(block)
    return b"".join(blocks)[:size]


KEY_SIZES = {1: 16, 2: 32}


class Context:
    """A context in mode base."""

    def __init__(self, kem, kdf, aead, shared_secret, info, limit):
        self.name = HASHES[kdf]
        self.suite_id = b"HPKE" + b"".join(number.to_bytes(2, "big") for number in (kem, kdf, aead))
        context = bytes(1) + self.labeled_extract(b"", b"psk_id_hash", b"") + self.labeled_extract(b"", b"info_hash", info)
        secret = self.labeled_extract(shared_secret, b"secret", b"")
        self.exporter_secret = self.labeled_expand(secret, b"exp", context, hashlib.new(self.name).digest_size)
        if aead in KEY_SIZES:
            self.key = self.labeled_expand(secret, b"key", context, KEY_SIZES[aead])
            self.base_nonce = int.from_bytes(self.labeled_expand(secret, b"base_nonce", context, 12), "big")
        self.limit = limit
        self.seq = 0
        self.cipher = None

    def labeled_extract(self, salt, label, ikm):
        return extract(self.name, salt, b"HPKE-v1" + self.suite_id + label + ikm)

    def labeled_expand(self, prk, label, info, size):
        return expand(self.name, prk, size.to_bytes(2, "big") + b"HPKE-v1" + self.suite_id + label + info, size)

    def export(self, exporter_context, size):
        return self.labeled_expand(self.exporter_secret, b"sec", exporter_context, size)

    def gcm(self):
        if self.cipher is None:
            from cryptography.hazmat.primitives.ciphers.aead import AESGCM

            self.cipher = AESGCM(self.key)
        return self.cipher

    def nonce(self):
        return (self.base_nonce ^ self.seq).to_bytes(12, "big")

    def seal(self, aad, text):
        if self.seq == self.limit:
            return "limit"
        reply = f"sealed {self.seq} {self.gcm().encrypt(self.nonce(), text, aad).hex()}"
        self.seq += 1
        return reply

    def unseal(self, aad, ct):
        from cryptography.exceptions import InvalidTag

        try:
            text = self.gcm().decrypt(self.nonce(), ct, aad)
        except InvalidTag:
            return f"failed {self.seq}"
        if self.seq == self.limit:
            return "limit"
        reply = f"opened {self.seq} {text.hex() or '-'}"
        self.seq += 1
        return reply


def bytes_of(field):
    return b"" if field == "-" else bytes.fromhex(field)


def missed(guess, numbers):
    return sum(number not in range(guess + i - min(i, 3), guess + i + 1) for i, number in enumerate(numbers))


def opening(context, fields):
    """The lines of an `unsealall`: each pair by itself, and what the number due at first missed."""
    guess, numbers, lines = context.seq, [], []
    for aad, ct in zip(fields[::2], fields[1::2]):
        numbers.append(context.seq)
        lines.append(context.unseal(bytes_of(aad), bytes_of(ct)))
    return lines + [f"batch {guess} {missed(guess, numbers)}"]


def main():
    contexts, journals, lines, lane, call = [], [], [], -1, 0
    for line in sys.stdin:
        word, *fields = line.split()
        if word == "share":
            _, kem, kdf, aead, secret, _, info, _, _, limit = fields
            contexts.append(Context(int(kem), int(kdf), int(aead), bytes_of(secret), bytes_of(info), int(limit)))
            journals.append([])
            continue
        if word == "lane":
            lane, call = lane + 1, -1
            lines.append(f"lane {lane}")
        elif word == "export":
            context, exporter_context, size = fields
            lines.append("exported " + (contexts[int(context)].export(bytes_of(exporter_context), int(size)).hex() or "-"))
        elif word in ("seal", "unseal", "unsealall"):
            number, *texts = fields
            context, journal = contexts[int(number)], journals[int(number)]
            journal += [f"{lane} {call} {item}" for item in range(len(texts) // 2)]
            if word == "unsealall":
                lines += opening(context, texts)
            else:
                once = context.seal if word == "seal" else context.unseal
                lines.append(once(*map(bytes_of, texts)))
        call += 1
    lines = ["hpkebatch 1", *(f"context {number} shared" for number in range(len(contexts))), *lines]
    for number, places in enumerate(journals):
        lines += [f"journal {number}", *places]
    sys.stdout.write("\n".join([*lines, "end", ""]))


if __name__ == "__main__":
    main()
