"""Batches, read by the tables of docs/FORMAT.md: a batch or its first bad line and first reason."""

from dataclasses import dataclass, field

MOST_INPUT = 67_108_864
KEY_WORDS = {"keygen", "secret", "peer"}
KEY_WORDS_OF_VERSION_2 = {"keygen857", "secret857", "peer857"}
CONTEXT_WORDS = {"share", "send", "recv"}
CALL_WORDS = {"seal", "unseal", "unsealall", "export"}
LIVE_WORDS = {"add", "retire"}  # for `live` alone
FIRST_NAME = 65_536  # what the number of `+K` stands behind
HEX = set(b"0123456789abcdef")


class Bad(Exception):
    def __init__(self, line, reason):
        super().__init__(f"bad {line} {reason}")
        self.line, self.reason = line, reason


class Reason(Exception):
    """Why the line that is being read is bad."""


@dataclass
class Batch:
    version: int
    seed: bytes | None = None
    keys: list = field(default_factory=list)  # (word, bytes)
    contexts: list = field(default_factory=list)  # dictionaries
    lanes: list = field(default_factory=list)  # lists of calls, each a dictionary
    items: int = 0  # of all lanes
    exported: int = 0  # the sum of all LEN
    added: int = 0  # how many of the contexts, the last ones, have a line `add`


def number(piece, least, most):
    if piece != b"0" and (not piece or piece[:1] == b"0" or not piece.isdigit()):
        raise Reason("number")
    # A number of more digits than the greatest one is out of range, however many it has.
    value = int(piece) if len(piece) <= 20 else 1 << 70
    if not least <= value <= most:
        raise Reason("range")
    return value


def chosen(piece, values):
    value = number(piece, 0, 65_535)
    if value not in values:
        raise Reason("range")
    return value


def octets(piece, most=65_535):
    if piece == b"-":
        return b""
    if not piece or len(piece) % 2 or not HEX.issuperset(piece):
        raise Reason("hex")
    if len(piece) // 2 > most:
        raise Reason("size")
    return bytes.fromhex(piece.decode())


def seed_of(piece):
    seed = octets(piece, 32)
    if len(seed) != 32:
        raise Reason("size")
    return seed


def word_of(piece, words):
    if piece.decode("latin-1") not in words:
        raise Reason("word")
    return piece.decode()


def enc_of(piece):
    if piece[:1] == b"@":
        return number(piece[1:], 0, 65_535)
    return octets(piece)


def name_of(piece):
    if piece[:1] != b"+":
        raise Reason("number")
    return number(piece[1:], 0, 65_535)


def context_of(piece):
    """CTX of `live`."""
    return FIRST_NAME + name_of(piece) if piece[:1] == b"+" else number(piece, 0, 65_535)


PT, CT = 1_048_576, 1_048_592
SUITE = [("kdf", lambda p: chosen(p, (1, 2, 3))), ("aead", lambda p: chosen(p, (1, 2, 65_535)))]
SCHEDULE = [
    ("mode", lambda p: word_of(p, ("base", "psk"))),
    ("info", octets),
    ("psk", octets),
    ("psk_id", octets),
    ("limit", lambda p: number(p, 1, 2**64 - 1)),
]
SMALL = lambda p: number(p, 0, 65_535)
FORMS = {
    "rand": [("seed", seed_of)],
    "keygen": [],
    "keygen857": [],
    "secret": [("bytes", octets)],
    "secret857": [("bytes", octets)],
    "peer": [("bytes", octets)],
    "peer857": [("bytes", octets)],
    "share": [("role", lambda p: word_of(p, ("send", "recv"))), ("kem", SMALL), *SUITE, ("secret", octets), *SCHEDULE],
    "send": [*SUITE, ("key", SMALL), *SCHEDULE],
    "recv": [*SUITE, ("key", SMALL), ("enc", enc_of), *SCHEDULE],
    "lane": [],
    "seal": [("context", SMALL), ("aad", octets), ("text", lambda p: octets(p, PT))],
    "unseal": [("context", SMALL), ("aad", octets), ("text", lambda p: octets(p, CT))],
    "export": [("context", SMALL), ("exporter", octets), ("size", SMALL)],
    "end": [],
}
FORMS["add"] = FORMS["share"]
FORMS["retire"] = [("name", name_of)]


def fields_of(word, pieces, is_live):
    if word == "unsealall":
        if len(pieces) < 3 or len(pieces) % 2 == 0:
            raise Reason("fields")
        context = context_of(pieces[0]) if is_live else number(pieces[0], 0, 65_535)
        items = []
        for at in range(1, len(pieces), 2):
            aad = octets(pieces[at])
            items.append((aad, octets(pieces[at + 1], CT)))
        return {"context": context, "items": items}
    form = FORMS[word]
    if len(pieces) != len(form):
        raise Reason("fields")
    if is_live and form[:1] == [("context", SMALL)]:
        form = [("context", context_of), *form[1:]]
    return {name: read(piece) for (name, read), piece in zip(form, pieces)}


def may_stand(word, batch, line):
    in_keys = not batch.contexts and not batch.lanes
    if word == "rand":
        return line == 2
    if word in KEY_WORDS | KEY_WORDS_OF_VERSION_2:
        return in_keys and (not word.startswith("keygen") or batch.seed is not None)
    if word in CONTEXT_WORDS:
        return not batch.lanes and (word != "send" or batch.seed is not None)
    if word in CALL_WORDS | LIVE_WORDS:
        return bool(batch.lanes)
    return True


def items_of(call):
    return len(call["items"]) if call["word"] == "unsealall" else 1


def add(word, read, batch):
    if word == "rand":
        batch.seed = read["seed"]
    elif word in KEY_WORDS | KEY_WORDS_OF_VERSION_2:
        batch.keys.append((word, read.get("bytes")))
    elif word in CONTEXT_WORDS:
        batch.contexts.append({"word": word, **read})
    elif word == "lane":
        batch.lanes.append([])
    else:
        if word == "add":
            batch.contexts.append({"word": "share", **read})
            read = {"name": batch.added}
            batch.added += 1
        call = {"word": word, **read}
        batch.lanes[-1].append(call)
        batch.items += items_of(call)
        batch.exported += call.get("size", 0)


def passes_a_limit(batch, read):
    """Whether a batch has more of something than it may have, with the line that was just read."""
    return (
        len(batch.keys) > 64
        or len(batch.contexts) > 256
        or len(batch.lanes) > 16
        or len(read.get("items", [])) > 4096
        or batch.items > 65_536
        or batch.exported > 16_777_216
    )


def read_batch(data, is_live=False):
    if len(data) > MOST_INPUT:
        raise Bad(0, "size")
    *lines, rest = data.split(b"\n")
    if not lines or lines[0] not in (b"hpkebatch 2",) + (() if is_live else (b"hpkebatch 1",)):
        raise Bad(1, "header")
    batch = Batch(int(lines[0][-1:]))
    words = (set(FORMS) if is_live else set(FORMS) - LIVE_WORDS) | {"unsealall"}
    if batch.version == 1:
        words -= KEY_WORDS_OF_VERSION_2
    for at, line in enumerate(lines[1:], 2):
        first, *pieces = line.split(b" ")
        word = first.decode("latin-1")
        try:
            if word not in words:
                raise Reason("word")
            if not may_stand(word, batch, at):
                raise Reason("order")
            read = fields_of(word, pieces, is_live)
            if word == "end":
                if len(lines) > at or rest:
                    raise Bad(at + 1, "trailing")
                return batch
            add(word, read, batch)
            if passes_a_limit(batch, read):
                raise Reason("count")
        except Reason as reason:
            raise Bad(at, str(reason)) from None
    raise Bad(len(lines) + 1, "noend")
