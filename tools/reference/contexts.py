"""HPKE contexts (RFC 9180) over given secrets or over Streamlined NTRU Prime, by `cryptography` and
hashlib, and the set-up of a batch's keys and contexts."""

import hashlib
import hmac
import os
import sys
from functools import lru_cache

from cryptography.exceptions import InvalidTag
from cryptography.hazmat.primitives.ciphers.aead import AESGCM

sys.path.insert(0, os.path.join(os.path.dirname(os.path.abspath(__file__)), "..", "vectors"))
from chacha20_words import stream_words  # noqa: E402
from samples import SETS, short, small  # noqa: E402
from sntrup import centred, encode, encrypt, hashed, hide, inverse, product, rq_encode, small_encode  # noqa: E402

HASHES = {1: "sha256", 2: "sha384", 3: "sha512"}
KEY_SIZES = {1: 16, 2: 32}
KEM_IDS = {761: 0xF761, 857: 0xF857}


def i2osp(value, size):
    return value.to_bytes(size, "big")


def hkdf_extract(name, salt, ikm):
    return hmac.digest(salt or bytes(hashlib.new(name).digest_size), ikm, name)


def hkdf_expand(name, prk, info, size):
    out, block, at = b"", b"", 1
    while len(out) < size:
        block = hmac.digest(prk, block + info + bytes([at]), name)
        out, at = out + block, at + 1
    return out[:size]


class Context:
    """One end of a context, as KeySchedule (RFC 9180, 5.1) leaves it."""

    def __init__(self, role, kem, shared_secret, line):
        self.role, self.limit = role, line["limit"]
        self.name = HASHES[line["kdf"]]
        self.suite_id = b"HPKE" + i2osp(kem, 2) + i2osp(line["kdf"], 2) + i2osp(line["aead"], 2)
        mode = {"base": 0, "psk": 1}[line["mode"]]
        hashes = [self.extract(b"", label, line[key]) for label, key in ((b"psk_id_hash", "psk_id"), (b"info_hash", "info"))]
        schedule = bytes([mode]) + b"".join(hashes)
        secret = self.extract(shared_secret, b"secret", line["psk"])
        self.size = hashlib.new(self.name).digest_size
        self.exporter_secret = self.expand(secret, b"exp", schedule, self.size)
        self.cipher = None
        if line["aead"] in KEY_SIZES:
            self.cipher = AESGCM(self.expand(secret, b"key", schedule, KEY_SIZES[line["aead"]]))
            self.base_nonce = int.from_bytes(self.expand(secret, b"base_nonce", schedule, 12), "big")

    def extract(self, salt, label, ikm):
        return hkdf_extract(self.name, salt, b"HPKE-v1" + self.suite_id + label + ikm)

    def expand(self, prk, label, info, size):
        return hkdf_expand(self.name, prk, i2osp(size, 2) + b"HPKE-v1" + self.suite_id + label + info, size)

    def nonce(self, seq):
        return i2osp(self.base_nonce ^ seq, 12)

    def seal(self, seq, aad, text):
        return self.cipher.encrypt(self.nonce(seq), text, aad)

    def open(self, seq, aad, text):
        """The plaintext, or None where the tag doesn't hold."""
        try:
            return self.cipher.decrypt(self.nonce(seq), text, aad) if len(text) >= 16 else None
        except InvalidTag:
            return None

    def export(self, exporter_context, size):
        return self.expand(self.exporter_secret, b"sec", exporter_context, size)


# ---- the KEM


def decode(data, radices):
    """Decode(S, M) of the standard: the bytes of each level stand before those of the next."""
    if len(radices) == 1:
        return [int.from_bytes(data, "little") % radices[0]] if radices[0] > 1 else [0]
    made, at, next_radices = [], 0, []
    for k in range(0, len(radices) - 1, 2):
        m, count = radices[k] * radices[k + 1], 0
        while m >= 16384:
            m, count = (m + 255) // 256, count + 1
        made.append((int.from_bytes(data[at : at + count], "little"), 256**count))
        at += count
        next_radices.append(m)
    if len(radices) % 2:
        next_radices.append(radices[-1])
    digits = []
    for k, digit in enumerate(decode(data[at:], next_radices)):
        if k == len(made):
            digits.append(digit)
            continue
        low, scale = made[k]
        whole = low + scale * digit
        digits += [whole % radices[2 * k], whole // radices[2 * k] % radices[2 * k + 1]]
    return digits


def small_decode(of, data):
    digits = [byte >> shift & 3 for byte in data for shift in (0, 2, 4, 6)]
    if 3 in digits or any(digits[of.p :]):
        return None
    return [digit - 1 for digit in digits[: of.p]]


class Kem:
    """One parameter set, with the sizes of its encodings in bytes."""

    def __init__(self, p):
        self.of = SETS[p]
        self.small = (p + 3) // 4
        self.public = len(rq_encode(self.of, [0] * p))
        self.enc = len(encode([0] * p, [(self.of.q - 1) // 3 + 1] * p)) + 32
        self.secret = 3 * self.small + self.public + 32

    def poly(self, public):
        half = (self.of.q - 1) // 2
        return [digit - half for digit in decode(public, [self.of.q] * self.of.p)]

    def generate(self, words):
        """The pair of encodings, or the word of the refusal."""
        of, p = self.of, self.of.p
        for j in range(64):
            g = small(words(j * p, p))
            ginv = inverse(3, g)
            if ginv is not None:
                break
        else:
            return "exhausted"
        f = short(words((j + 1) * p, p), of.w)
        finv = inverse(of.q, [3 * x for x in f])
        if finv is None:
            return "noinverse"
        public = rq_encode(of, product(of.q, finv, g))
        rho = b"".join(w.to_bytes(4, "little") for w in words((j + 2) * p, (self.small + 3) // 4))[: self.small]
        return public, small_encode(f) + small_encode(ginv) + public + rho + hashed(4, public)

    def encap(self, words, public):
        r = short(words(0, self.of.p), self.of.w)
        enc = hide(self.of, r, public, self.poly(public))
        return enc, hashed(1, hashed(3, small_encode(r)) + enc)

    def decap(self, enc, secret):
        of, p = self.of, self.of.p
        f, ginv = (small_decode(of, secret[k * self.small :][: self.small]) for k in (0, 1))
        public = secret[2 * self.small :][: self.public]
        rho = secret[2 * self.small + self.public :][: self.small]
        half, radix = (of.q - 1) // 2, (of.q - 1) // 3 + 1
        c = [3 * digit - half for digit in decode(enc[:-32], [radix] * p)]
        e = [centred(x, 3) for x in product(of.q, [3 * x for x in f], c)]
        r = product(3, e, ginv)
        if sum(map(abs, r)) != of.w:
            r = [1] * of.w + [0] * (p - of.w)
        # The kept hash is taken as given, never made again of the public key.
        confirm = hashed(2, hashed(3, small_encode(r)) + secret[-32:])
        rounded = encrypt(of, r, self.poly(public))
        again = encode([(x + half) // 3 for x in rounded], [radix] * p) + confirm
        if again == enc:
            return hashed(1, hashed(3, small_encode(r)) + enc)
        return hashed(0, hashed(3, rho) + enc)


KEMS = {p: Kem(p) for p in SETS}


# ---- the set-up


def words_of(seed, stream):
    """Words of a stream, by where the first stands and how many."""
    made = []

    def words(start, count):
        if len(made) < start + count:
            made[:] = stream_words(seed, stream, start + count)
        return made[start : start + count]

    return words


# Kept, since batches that differ by a byte have most of their keys in common.
@lru_cache(maxsize=256)
def pair_of(p, seed, number):
    """The pair that key line `number` makes of this seed, or the word of the refusal."""
    return KEMS[p].generate(words_of(seed, 2 * number))


@lru_cache(maxsize=256)
def sent_to(p, seed, number, public):
    """What context line `number` encapsulates by this seed, and the shared secret."""
    return KEMS[p].encap(words_of(seed, 2 * number + 1), public)


@lru_cache(maxsize=256)
def received(p, enc, secret):
    return KEMS[p].decap(enc, secret)


def key_of(batch, number):
    """The reply to a key line, and its set, public and secret encoding where it stands."""
    word, given = batch.keys[number]
    p = 857 if word.endswith("857") else 761
    kem = KEMS[p]
    if word.startswith("keygen"):
        pair = pair_of(p, batch.seed, number)
        if isinstance(pair, str):
            return f"refused {pair}", None
        return f"generated {pair[0].hex()} {pair[1].hex()}", (p, *pair)
    if word.startswith("peer"):
        if len(given) != kem.public:
            return "refused length", None
        return "peer", (p, given, None)
    if len(given) != kem.secret:
        return "refused length", None
    if any(small_decode(kem.of, given[k * kem.small :][: kem.small]) is None for k in (0, 1)):
        return "refused form", None
    public = given[2 * kem.small :][: kem.public]
    return f"secret {public.hex()}", (p, public, given)


def psk_refusal(line):
    given = bool(line["psk"]), bool(line["psk_id"])
    if given[0] != given[1]:
        return "pskpair"
    if given[0] and line["mode"] == "base":
        return "pskextra"
    if not given[0] and line["mode"] == "psk":
        return "pskmissing"
    return None


def secret_of(batch, keys, encs, number):
    """role, kem, shared secret and enc of a context line, or the word of its refusal."""
    line = batch.contexts[number]
    if line["word"] == "share":
        return {"send": "sender", "recv": "recipient"}[line["role"]], line["kem"], line["secret"], None
    key = keys[line["key"]] if line["key"] < len(keys) else None
    if key is None:
        return "nokey"
    p, public, secret = key
    if line["word"] == "send":
        enc, shared = sent_to(p, batch.seed, number, public)
        return "sender", KEM_IDS[p], shared, enc
    if secret is None:
        return "needsecret"
    enc = encs.get(line["enc"]) if isinstance(line["enc"], int) else line["enc"]
    if enc is None:
        return "noenc"
    if len(enc) != KEMS[p].enc:
        return "encsize"
    return "recipient", KEM_IDS[p], received(p, enc, secret), enc


def set_up(batch):
    """The lines that reply to keys and contexts, and the contexts, None for a refused one."""
    lines, keys, encs, contexts = [], [], {}, []
    for number in range(len(batch.keys)):
        reply, key = key_of(batch, number)
        lines.append(f"key {number} {reply}")
        keys.append(key)
    for number, line in enumerate(batch.contexts):
        made = secret_of(batch, keys, encs, number)
        refusal = made if isinstance(made, str) else psk_refusal(line)
        if refusal:
            lines.append(f"context {number} refused {refusal}")
            contexts.append(None)
            continue
        role, kem, shared, enc = made
        if line["word"] == "send":
            encs[number] = enc
        reply = {"share": "shared", "send": f"sender {enc and enc.hex()}", "recv": "recipient"}[line["word"]]
        lines.append(f"context {number} {reply}")
        contexts.append(Context(role, kem, shared, line))
    return lines, contexts
