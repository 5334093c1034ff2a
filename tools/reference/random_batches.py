"""Random batches of `run` and `rehearse`, of every line there is, most of them small; and what spoils a batch."""

from batches import Bad, read_batch
from contexts import KEMS, set_up


class Maker:
    def __init__(self, random):
        self.random = random
        self.version = random.choice((1, 2))
        self.seeded = random.random() < 0.3
        self.keys = random.randrange(3) if self.seeded else 0

    def hex(self, most):
        size = self.random.choice((0, 1, self.random.randrange(most + 1)))
        return self.random.randbytes(size).hex() or "-"

    def pick(self, *values):
        return str(self.random.choice(values))

    def suite(self):
        return f"{self.pick(1, 2, 3)} {self.pick(1, 1, 2, 65535)}"

    def schedule(self):
        psk = self.random.choice(["base - - -"] * 5 + ["psk - aa bb", "psk - - -", "base - aa bb", "psk - aa -"])
        mode, info, *rest = psk.split()
        return " ".join([mode, self.pick("-", "6869"), *rest, self.pick(1, 2, 3, 9, 9, 9, 2**64 - 1)])

    def key(self):
        sets = ["", "857"] if self.version == 2 else [""]
        of = self.random.choice(sets)
        sizes = KEMS[857 if of else 761]
        return self.random.choice(
            [f"keygen{of}"] * 3 + [f"peer{of} " + "ab" * self.random.choice((sizes.public, 3)), f"secret{of} " + "00" * sizes.secret]
        )

    def context(self, number):
        kinds = ["share"] * 4 + (["send", "recv"] * 3 if self.seeded else [])
        kind = self.random.choice(kinds)
        if kind == "share":
            role = self.pick("send", "recv")
            return f"share {role} 32 {self.pick(1, 3)} {self.pick(1, 1, 1, 2, 65535)} {self.pick('ab', 'cd')} {self.schedule()}"
        if kind == "send":
            return f"send {self.suite()} {self.random.randrange(self.keys + 1)} {self.schedule()}"
        enc = self.random.choice([f"@{self.random.randrange(number + 1)}", "00"])
        return f"recv {self.suite()} {self.random.randrange(self.keys + 1)} {enc} {self.schedule()}"

    def lines(self):
        yield f"hpkebatch {self.version}"
        if self.seeded:
            yield "rand " + self.random.randbytes(32).hex()
        for _ in range(self.keys):
            yield self.key()
        self.count = self.random.randrange(1, 5)
        for number in range(self.count):
            yield self.context(number)

    def call(self, contexts, sent):
        """A call; some openings are of messages that were sealed at a number near the one due."""
        context = self.random.randrange(self.count + (self.random.random() < 0.05))
        c = contexts[context] if context < len(contexts) else None
        kind = self.pick("seal", "unseal", "unsealall", "unsealall", "export")
        if kind == "export":
            return f"export {context} {self.hex(3)} {self.pick(0, 1, 32, 8160, 8161)}"
        if c is not None and c.cipher and self.random.random() < 0.9:
            kind = "seal" if c.role == "sender" else self.pick("unseal", "unsealall")
        if kind == "seal":
            return f"seal {context} {self.hex(3)} {self.hex(40)}"
        pairs = []
        for _ in range(self.random.randrange(1, 7) if kind == "unsealall" else 1):
            if c is None or c.cipher is None or self.random.random() < 0.2:
                pairs.append(f"- {self.hex(40)}")
                continue
            number = max(0, sent.get(context, 0) + self.random.choice((0, 0, 0, 0, 1, -1)))
            sent[context] = number + 1
            pairs.append(f"- {c.seal(number, b'', self.random.randbytes(self.random.randrange(20))).hex()}")
        return f"{kind} {context} " + " ".join(pairs)

    def batch(self):
        head = list(self.lines())
        try:
            contexts = set_up(read_batch("".join(f"{line}\n" for line in head + ["end"]).encode()))[1]
        except Bad:
            contexts = []
        sent = {}
        for _ in range(self.random.randrange(4)):
            head.append("lane")
            head += [self.call(contexts, sent) for _ in range(self.random.randrange(6))]
        return "".join(f"{line}\n" for line in head + ["end"]).encode()


def spoilt(random, data):
    at = random.randrange(len(data))
    byte = bytes([random.choice(b" \n-@0129afgz\xff")])
    return random.choice((data[:at] + byte + data[at + 1 :], data[:at] + data[at + 1 :], data[:at] + byte + data[at:], data[:at]))
