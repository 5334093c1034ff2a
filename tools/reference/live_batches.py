"""Random batches whose lanes add and retire contexts."""

from contexts import Context

SECRETS = ("ab", "cd")


class LiveMaker:
    """Up to 16 lanes that meet on a few names. A quarter of the batches has lanes that race: one adds and
    retires a name again and again, and the others call it."""

    def __init__(self, random, most_lanes=4, most_calls=8):
        self.random = random
        self.lanes = random.randrange(1, most_lanes + 1)
        self.calls = most_calls
        self.is_race = random.random() < 0.25
        self.lines = [f"share {self.fields()}" for _ in range(random.randrange(3))]
        self.added = []  # the fields of each line `add`
        self.sent = {}  # of each context: how many messages were sealed for it

    def pick(self, *values):
        return str(self.random.choice(values))

    def hex(self, most):
        return self.random.randbytes(self.random.randrange(most + 1)).hex() or "-"

    def fields(self):
        psk = self.random.choice(["base - - -"] * 7 + ["psk - aa bb", "psk - - -", "base - aa bb", "psk - aa -"])
        suite = f"32 {self.pick(1, 3)} {self.pick(1, 1, 1, 2, 65535)}"
        limit = self.pick(1, 3, 9, 2**64 - 1, 2**64 - 1)
        return f"{self.pick('send', 'recv')} {suite} {self.pick(*SECRETS)} {psk} {limit}"

    def fields_at(self, number):
        if number.startswith("+"):
            return self.added[int(number[1:])] if int(number[1:]) < len(self.added) else None
        return self.lines[int(number)][6:] if int(number) < len(self.lines) else None

    def message(self, number):
        """A text that a context may have sealed near the number that is due, or any."""
        fields = self.fields_at(number)
        if fields is None or self.random.random() < 0.2:
            return self.hex(40)
        _, kem, kdf, aead, secret, mode, _, psk, psk_id, limit = fields.split()
        if aead == "65535":
            return self.hex(40)
        line = {"kdf": int(kdf), "aead": int(aead), "mode": mode, "info": b"", "limit": int(limit)}
        for name, given in (("psk", psk), ("psk_id", psk_id)):
            line[name] = b"" if given == "-" else bytes.fromhex(given)
        at = max(0, self.sent.get(number, 0) + self.random.choice((0, 0, 0, 1, -1)))
        self.sent[number] = at + 1
        return Context("sender", int(kem), bytes.fromhex(secret), line).seal(at, b"", self.random.randbytes(5)).hex()

    def number(self):
        """CTX: mostly a name that some line adds."""
        if self.lines and self.random.random() < 0.3:
            return str(self.random.randrange(len(self.lines) + (self.random.random() < 0.1)))
        return f"+{self.random.randrange(len(self.added) + 1)}"

    def call(self):
        number = self.number()
        fields = self.fields_at(number)
        kind = self.pick("seal", "unseal", "unsealall", "unsealall", "export")
        if fields and kind != "export" and self.random.random() < 0.9:
            kind = "seal" if fields.startswith("send") else self.pick("unseal", "unsealall")
        if kind == "export":
            return f"export {number} {self.hex(3)} {self.pick(0, 32, 8160, 8161)}"
        if kind == "seal":
            return f"seal {number} {self.hex(3)} {self.hex(20)}"
        count = self.random.randrange(1, 6) if kind == "unsealall" else 1
        return f"{kind} {number} " + " ".join(f"- {self.message(number)}" for _ in range(count))

    def line(self):
        at = self.random.random()
        if at < (0.3 if len(self.added) < 4 else 0.1):
            self.added.append(self.fields())
            return f"add {self.added[-1]}"
        if at < 0.35:
            return f"retire +{self.random.randrange(len(self.added) + 1)}"
        return self.call()

    def race(self):
        """A lane that adds a sender and retires it, beside lanes that seal on it."""
        for lane in range(min(self.lanes + 1, 16)):
            yield "lane"
            for turn in range(3 * self.calls):
                if lane:
                    yield f"seal +{turn // 3} - {turn:02x}"
                elif turn % 3 == 0:
                    yield "add send 32 1 1 ab base - - - 50"
                else:
                    yield f"seal +{turn // 3} - 00" if turn % 3 == 1 else f"retire +{turn // 3}"

    def text(self):
        yield "hpkebatch 2"
        yield from self.lines
        if self.is_race:
            yield from self.race()
        else:
            for _ in range(self.lanes):
                yield "lane"
                for _ in range(self.random.randrange(self.calls + 1)):
                    yield self.line()
        yield "end"

    def batch(self):
        return "".join(f"{line}\n" for line in self.text()).encode()


def many_adds():
    """16 lanes that add 16 contexts each, all 256 there may be, and seal on those of the lane before."""
    lines = ["hpkebatch 2"]
    for lane in range(16):
        lines += ["lane", *(f"add send 32 1 1 {16 * lane + k:02x} base - - - 9" for k in range(16))]
        lines += [f"seal +{(16 * (lane or 16) - 16 + k) % 256} - {lane:02x}" for k in range(16)]
        lines += [f"retire +{16 * lane + k}" for k in range(0, 16, 2)]
    return "".join(f"{line}\n" for line in [*lines, "end"]).encode()
