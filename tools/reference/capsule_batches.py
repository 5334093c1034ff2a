"""Random batches of capsules: exchanges whose messages are made, given as bytes, cut, changed, or taken for
those of other lines."""

from capsules import Exchange, read_capsules
from contexts import KEMS


class CapsuleMaker:
    def __init__(self, random):
        self.random = random
        self.seeded = random.random() < 0.9
        self.head = ["hpkebatch 2"]
        if self.seeded:
            # Of a few seeds, so that keys and encapsulations are kept.
            self.head.append("rand " + f"{random.randrange(4):02x}" * 32)
        self.head += [self.key() for _ in range(random.randrange(1, 4))]
        self.lines = []
        self.suites = []  # of the asks, made or refused

    def pick(self, *values):
        return self.random.choice(values)

    def hex(self, most):
        size = self.pick(0, 1, self.random.randrange(most + 1))
        return self.random.randbytes(size).hex() or "-"

    def key(self):
        of = self.pick("", "857")
        sizes = KEMS[857 if of else 761]
        kinds = ["peer" + of + " " + "ab" * self.pick(sizes.public, 3), "secret" + of + " " + "00" * sizes.secret]
        return self.pick(*kinds, *["keygen" + of] * (14 if self.seeded else 0))

    def number(self, of):
        """The number of a line, most often of one that stands already."""
        return self.random.randrange(of + 1) if of == 0 or self.random.random() < 0.1 else self.random.randrange(of)

    def made(self):
        """What the lines so far left."""
        exchange = Exchange(read_capsules("".join(f"{line}\n" for line in [*self.head, *self.lines, "end"]).encode()))
        exchange.text()
        return exchange.left

    def message(self, left):
        """A reference to one of these messages, or its bytes, or these with a change."""
        number = self.number(len(left))
        if self.random.random() < 0.5 or number >= len(left) or left[number] is None:
            return f"@{number}" if self.random.random() < 0.95 else self.hex(60)
        data = bytearray(getattr(left[number], "request", left[number]))
        change = self.pick("none", "cut", "bit", "bit", "front")
        if change == "cut":
            data = data[: self.pick(len(data) - 1, self.random.randrange(len(data)), 32, 31)]
        if change == "bit":
            data[self.random.randrange(len(data))] ^= 1 << self.random.randrange(8)
        if change == "front":
            data[self.random.randrange(min(7, len(data)))] = self.random.randrange(256)
        return bytes(data).hex() or "-"

    def line(self):
        key, id_ = self.pick(*[0] * 7, 1, 2, 3), self.pick(*[7] * 9, 8)
        kind = self.pick("ask", "ask", "answer", "answer", "take")
        if kind == "ask" and self.seeded:
            self.suites.append(self.pick(1, 2))
            return f"ask {key} {id_} {self.pick(1, 2, 3)} {self.suites[-1]} {self.hex(40)}"
        left = self.made()
        if kind == "take":
            return f"take {self.number(len(left['ask']))} {self.message(left['answer'])}"
        request = self.message(left["ask"])
        asked = int(request[1:]) if request[0] == "@" else len(self.suites)
        aead = self.suites[asked] if asked < len(self.suites) else self.pick(1, 2)
        nonce = self.random.randbytes(16 * aead if self.random.random() < 0.9 else self.pick(0, 15, 16, 32))
        return f"answer {key} {id_} {request} {nonce.hex() or '-'} {self.hex(40)}"

    def batch(self):
        for _ in range(self.random.randrange(14)):
            self.lines.append(self.line())
        return "".join(f"{line}\n" for line in [*self.head, *self.lines, "end"]).encode()
