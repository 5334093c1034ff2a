"""Batches of capsules (RFC 9458, 4): read, and answered line after line, by the tables of docs/FORMAT.md,
over the contexts of contexts.py."""

from dataclasses import dataclass, field

from batches import FORMS, KEY_WORDS, KEY_WORDS_OF_VERSION_2, MOST_INPUT, Bad, Reason, chosen, number, octets
from contexts import HASHES, KEM_IDS, KEMS, KEY_SIZES, Context, hkdf_expand, hkdf_extract, i2osp, key_of, received, sent_to
from cryptography.exceptions import InvalidTag
from cryptography.hazmat.primitives.ciphers.aead import AESGCM

ALL_KEY_WORDS = KEY_WORDS | KEY_WORDS_OF_VERSION_2
CAPSULE_WORDS = ("ask", "answer", "take")
TEXT, REQUEST, RESPONSE = 1_048_576, 1_049_783, 1_048_624


# ---- the batch


@dataclass
class Capsules:
    seed: bytes | None = None
    keys: list = field(default_factory=list)  # (word, bytes)
    lines: list = field(default_factory=list)  # dictionaries


def message(piece, most):
    return number(piece[1:], 0, 65_535) if piece[:1] == b"@" else octets(piece, most)


SMALL = lambda p: number(p, 0, 65_535)
ID = lambda p: number(p, 0, 255)
CAPSULE_FORMS = {word: FORMS[word] for word in [*ALL_KEY_WORDS, "rand", "end"]} | {
    "ask": [
        ("key", SMALL),
        ("id", ID),
        ("kdf", lambda p: chosen(p, (1, 2, 3))),
        ("aead", lambda p: chosen(p, (1, 2))),
        ("text", lambda p: octets(p, TEXT)),
    ],
    "answer": [
        ("key", SMALL),
        ("id", ID),
        ("request", lambda p: message(p, REQUEST)),
        ("nonce", octets),
        ("text", lambda p: octets(p, TEXT)),
    ],
    "take": [("ask", SMALL), ("response", lambda p: message(p, RESPONSE))],
}


def may_stand(word, batch, at):
    if word == "rand":
        return at == 2
    if word in ALL_KEY_WORDS and batch.lines:
        return False
    return not (word.startswith("keygen") or word == "ask") or batch.seed is not None


def add(word, read, batch):
    if word == "rand":
        batch.seed = read["seed"]
    elif word in ALL_KEY_WORDS:
        batch.keys.append((word, read.get("bytes")))
    else:
        batch.lines.append({"word": word, **read})


def passes_a_limit(word, batch):
    return len(batch.keys) > 64 or sum(line["word"] == word for line in batch.lines) > 256


def read_capsules(data):
    if len(data) > MOST_INPUT:
        raise Bad(0, "size")
    *lines, rest = data.split(b"\n")
    if not lines or lines[0] != b"hpkebatch 2":
        raise Bad(1, "header")
    batch = Capsules()
    for at, line in enumerate(lines[1:], 2):
        first, *pieces = line.split(b" ")
        word = first.decode("latin-1")
        try:
            if word not in CAPSULE_FORMS:
                raise Reason("word")
            if not may_stand(word, batch, at):
                raise Reason("order")
            form = CAPSULE_FORMS[word]
            if len(pieces) != len(form):
                raise Reason("fields")
            read = {name: take(piece) for (name, take), piece in zip(form, pieces)}
            if word == "end":
                if len(lines) > at or rest:
                    raise Bad(at + 1, "trailing")
                return batch
            add(word, read, batch)
            if passes_a_limit(word, batch):
                raise Reason("count")
        except Reason as reason:
            raise Bad(at, str(reason)) from None
    raise Bad(len(lines) + 1, "noend")


# ---- the messages


def header(key_id, kem, kdf, aead):
    return i2osp(key_id, 1) + i2osp(kem, 2) + i2osp(kdf, 2) + i2osp(aead, 2)


def context_of(shared_secret, key_id, kem, kdf, aead):
    info = b"message/bhttp request" + b"\0" + header(key_id, kem, kdf, aead)
    line = {"limit": 1, "kdf": kdf, "aead": aead, "mode": "base", "psk": b"", "psk_id": b"", "info": info}
    return Context("sender", kem, shared_secret, line)


def entropy(aead):
    return max(12, KEY_SIZES[aead])


def response_cipher(context, enc, nonce, kdf, aead):
    """The cipher of a response, and its nonce."""
    secret = context.export(b"message/bhttp response", entropy(aead))
    prk = hkdf_extract(HASHES[kdf], enc + nonce, secret)
    return AESGCM(hkdf_expand(HASHES[kdf], prk, b"key", KEY_SIZES[aead])), hkdf_expand(HASHES[kdf], prk, b"nonce", 12)


@dataclass
class Sent:
    context: Context
    enc: bytes
    kdf: int
    aead: int
    request: bytes


class Refused(Exception):
    """The word of a refusal."""


class Exchange:
    """The keys of a batch, and what its lines left so far."""

    def __init__(self, batch):
        self.batch = batch
        replies = [key_of(batch, k) for k in range(len(batch.keys))]
        self.setup = [f"key {k} {reply}" for k, (reply, _) in enumerate(replies)]
        self.keys = [key for _, key in replies]
        self.left = {word: [] for word in CAPSULE_WORDS}  # by number, None for a refused line

    def key(self, number):
        if number >= len(self.keys) or self.keys[number] is None:
            raise Refused("nokey")
        return self.keys[number]

    def earlier(self, word, number, refusal):
        made = self.left[word]
        if number >= len(made) or made[number] is None:
            raise Refused(refusal)
        return made[number]

    def ask(self, line):
        p, public, _ = self.key(line["key"])
        enc, shared = sent_to(p, self.batch.seed, len(self.left["ask"]), public)
        suite = line["id"], KEM_IDS[p], line["kdf"], line["aead"]
        context = context_of(shared, *suite)
        request = header(*suite) + enc + context.seal(0, b"", line["text"])
        return Sent(context, enc, line["kdf"], line["aead"], request), ("asked", request)

    def answer(self, line):
        p, _, secret = self.key(line["key"])
        if secret is None:
            raise Refused("needsecret")
        request = line["request"]
        if isinstance(request, int):
            request = self.earlier("ask", request, "noask").request
        size = KEMS[p].enc
        if len(request) < 7 + size + 16:
            raise Refused("short")
        kdf, aead = (int.from_bytes(request[at : at + 2], "big") for at in (3, 5))
        if kdf not in HASHES or aead not in KEY_SIZES or request[:7] != header(line["id"], KEM_IDS[p], kdf, aead):
            raise Refused("header")
        nonce = line["nonce"]
        if len(nonce) != entropy(aead):
            raise Refused("noncesize")
        enc = request[7 : 7 + size]
        context = context_of(received(p, enc, secret), line["id"], KEM_IDS[p], kdf, aead)
        text = context.open(0, b"", request[7 + size :])
        if text is None:
            raise Refused("failed")
        cipher, once = response_cipher(context, enc, nonce, kdf, aead)
        response = nonce + cipher.encrypt(once, line["text"], b"")
        return response, ("answered", text, response)

    def take(self, line):
        sent = self.earlier("ask", line["ask"], "noask")
        response = line["response"]
        if isinstance(response, int):
            response = self.earlier("answer", response, "noanswer")
        size = entropy(sent.aead)
        if len(response) < size + 16:
            raise Refused("short")
        cipher, once = response_cipher(sent.context, sent.enc, response[:size], sent.kdf, sent.aead)
        try:
            text = cipher.decrypt(once, response[size:], b"")
        except InvalidTag:
            raise Refused("failed") from None
        return text, ("took", text)

    def reply(self, line):
        word = line["word"]
        try:
            left, (done, *texts) = getattr(self, word)(line)
        except Refused as refusal:
            self.left[word].append(None)
            return f"refused {refusal}"
        self.left[word].append(left)
        return " ".join([done, *(text.hex() or "-" for text in texts)])

    def text(self):
        lines = ["hpkebatch 2", *self.setup, *map(self.reply, self.batch.lines), "end"]
        return "".join(f"{line}\n" for line in lines)


def answer_capsules(data):
    """The reply to a batch of capsules, or its bad line, and the status."""
    try:
        return Exchange(read_capsules(data)).text(), 0
    except Bad as bad:
        return f"{bad}\n", 3
