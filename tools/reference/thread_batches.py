"""Batches whose lanes meet on contexts that they share."""

from batches import read_batch
from contexts import set_up

SECRET = "fe0e18c9f024ce43799ae393c7e8fe8fce9d218875e8227b0187c04e7d2ea1fc"
AAD = "436f756e742d30"
MOST = 2**64 - 1


def text_of(lines):
    return "".join(f"{line}\n" for line in [*lines, "end"]).encode()


def contexts_of(lines):
    """The contexts that stand after these lines, None for a refused one."""
    return set_up(read_batch(text_of(lines)))[1]


def share(role, limit=MOST, secret=SECRET):
    return f"share {role} 32 1 1 {secret} base - - - {limit}"


def seals(head, senders):
    """16 lanes of 100 seals of 1,024 bytes, of the senders in turn."""
    text = (bytes(range(256)) * 4).hex()
    lane = [f"seal {number % senders} {AAD} {text}" for number in range(100)]
    return text_of(head + ["lane", *lane] * 16)


def one_sender():
    return seals(["hpkebatch 1", share("send")], 1)


def two_senders():
    return seals(["hpkebatch 2", share("send"), share("send", secret="ab" * 32)], 2)


def many_contexts():
    """16 lanes that seal on each of 256 contexts, from a place of their own on."""
    head = ["hpkebatch 2", *(share("send", 9, f"{number:02x}" * 32) for number in range(256))]
    for lane in range(16):
        order = [(256 // 16 * lane + step) % 256 for step in range(256)]
        head += ["lane", *(f"seal {context} - {lane:02x}" for context in order)]
    return text_of(head)


def large_openings():
    """16 lanes that each open 4,096 messages of one recipient at once. Half of them are changed; the others
    have the numbers from 0 on in one lane and those that follow in the next, so each opens all of its own or
    none, by the turn at which it comes."""
    head = ["hpkebatch 1", share("recv")]
    recipient = contexts_of(head)[0]
    for lane in range(16):
        pairs = []
        for k in range(2048):
            ct = recipient.seal(2048 * (lane % 2) + k, b"", k.to_bytes(4, "big")).hex()
            pairs += [f"- {ct}", f"- {'0' if ct[0] != '0' else '1'}{ct[1:]}"]
        head += ["lane", "unsealall 0 " + " ".join(pairs)]
    return text_of(head)


USUAL = {
    "one sender": one_sender,
    "two senders": two_senders,
    "256 contexts": many_contexts,
    "large openings": large_openings,
}


class Maker:
    """Random batches of 2 to 16 lanes on 1 to 6 contexts. A third of them are heavy: long openings of one
    context or two, whose tags take so long to test that other lanes come between."""

    def __init__(self, random):
        self.random = random
        self.is_heavy = random.random() < 0.3
        self.largest = 1000 if self.is_heavy else random.choice((20, 200, 2000))
        self.head = [f"hpkebatch {random.choice((1, 2))}"]
        self.has_keys = random.random() < 0.05
        if self.has_keys:
            self.head += ["rand " + random.randbytes(32).hex(), "keygen"]
        count = random.randrange(1, 3 if self.is_heavy else 7)
        self.head += [self.context(number) for number in range(count)]
        self.contexts = contexts_of(self.head)
        self.top = [0] * count  # by context: the numbers below it have a message in some opening

    def one_of(self, *values):
        return self.random.choice(values)

    def context(self, number):
        psk = self.one_of(*["base - - -"] * 40, "psk 6869 aa bb", "psk - - -", "base - aa -", "base - aa bb")
        rest = f"{psk} {self.one_of(1, 2, 3, 5, 9, 30, *[MOST] * 6)}"
        suite = f"{self.one_of(1, 2, 3)} {self.one_of(*[1] * 12, *[2] * 6, 65535)}"
        if self.has_keys:
            kind = self.one_of(f"send {suite} 0", f"recv {suite} 0 @0") if number else f"send {suite} 0"
            return f"{kind} {rest}"
        role = "recv" if self.is_heavy else self.one_of("send", "recv")
        return f"share {role} 32 {suite} {self.random.randbytes(32).hex()} {rest}"

    def bytes(self):
        return self.random.randbytes(self.random.randrange(self.one_of(2, 20, self.largest, self.largest)))

    def message(self, context, number, is_changed=False):
        """The associated data and the ciphertext of the message of a number."""
        c, aad = self.contexts[context], self.random.randbytes(self.random.randrange(3))
        ct = bytearray(c.seal(number, aad, self.bytes()) if c and c.cipher else self.bytes())
        if is_changed and ct:
            ct = self.one_of(ct[:-1], ct[1:], ct[:-1] + bytes([ct[-1] ^ 1]), bytes([ct[0] ^ 128]) + ct[1:])
        return f"{aad.hex() or '-'} {ct.hex() or '-'}"

    def messages(self, context, first, count):
        """The messages of so many numbers in their order, with others between that don't open."""
        for number in range(first, first + count):
            if self.random.random() < 0.1:
                yield self.message(context, number, is_changed=True)
            if self.random.random() < 0.05:
                yield self.message(context, max(0, number + self.one_of(-1, 1, 5)))
            yield self.message(context, number)

    def opening(self, context):
        """Messages whose numbers begin somewhere among those that other lanes open too. So it hangs on their
        turns which lane opens which."""
        if not self.is_heavy and self.random.random() < 0.4:
            number = max(0, self.top[context] + self.one_of(0, 0, 0, -1, -2, -4))
            self.top[context] = max(self.top[context], number + 1)
            return f"unseal {context} {self.message(context, number, self.random.random() < 0.1)}"
        count = self.random.randrange(1, 200 if self.is_heavy else self.one_of(3, 8, 40))
        first = max(0, self.top[context] - self.random.randrange(self.one_of(1, 4, 2 * count)))
        self.top[context] = max(self.top[context], first + count)
        return f"unsealall {context} {' '.join(self.messages(context, first, count))}"

    def call(self):
        context = self.random.randrange(len(self.contexts))
        c = self.contexts[context]
        if self.random.random() < 0.02:
            return f"seal {len(self.contexts)} - -"
        if self.random.random() < 0.1:
            return f"export {context} {self.bytes().hex() or '-'} {self.one_of(0, 32, 100, 8160, 8161)}"
        is_sender = c.role == "sender" if c else self.one_of(True, False)
        if is_sender != (self.random.random() < 0.03):
            return f"seal {context} - {self.bytes().hex() or '-'}"
        return self.opening(context)

    def batch(self):
        lanes, is_alike = self.random.randrange(2, 17), self.one_of(True, False)
        calls = self.random.randrange(2, 20 if self.is_heavy else self.one_of(20, 60, 200))
        lines = []
        for lane in sorted(self.random.randrange(lanes) for _ in range(calls)):
            while lines.count("lane") <= lane:
                lines.append("lane")
                if is_alike:
                    # Each lane opens the messages of the same numbers, from 0 on.
                    self.top = [0] * len(self.contexts)
            lines.append(self.call())
        return text_of(self.head + lines + ["lane"] * (lanes - lines.count("lane")))
