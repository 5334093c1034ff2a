#!/usr/bin/env python3
"""A second hpkebatch, written from docs/FORMAT.md and the standards alone: no code of the program's.

    tools/reference/hpkebatch.py rehearse SCHEDULE < BATCH     the reply, status 0; or the bad line, status 3
    tools/reference/hpkebatch.py run < BATCH                   that of the lanes one after another
    tools/reference/hpkebatch.py live < BATCH                  that of lanes that add and retire contexts, too
    tools/reference/hpkebatch.py capsules < BATCH              the reply to a batch of capsules

What threads may have answered is judged by tools/reference/judge.

It is slow and plain: a context is a list of places, and each item is answered at its place. AES-GCM is
that of `cryptography`, the hashes are hashlib's, the KEM is tools/vectors/sntrup.py.
"""

import sys

from batches import Bad, items_of, read_batch
from capsules import answer_capsules
from contexts import set_up


def refusal(batch, contexts, call):
    context = contexts[call["context"]] if call["context"] < len(contexts) else None
    if context is None:
        return "nocontext"
    if call["word"] == "export":
        return "exportsize" if call["size"] > 255 * context.size else None
    if context.role != ("sender" if call["word"] == "seal" else "recipient"):
        return "role"
    return "nocipher" if context.cipher is None else None


def hexed(data):
    return data.hex() or "-"


class Run:
    """The journals of a batch, and the guesses of its openings of several messages."""

    def __init__(self, batch):
        self.batch = batch
        self.setup, self.contexts = set_up(batch)
        self.journals = [[] for _ in self.contexts]  # of (lane, call, item, stamp)
        self.guesses = {}  # by lane and call
        self.given = 0

    def items(self, lane, call):
        asked = self.batch.lanes[lane][call]
        return asked["items"] if asked["word"] == "unsealall" else [(asked["aad"], asked["text"])]

    def due(self, context, count=None):
        """The number that is due after so many places of a journal, and the replies of these."""
        c, number, replies = self.contexts[context], 0, {}
        for place in self.journals[context][:count]:
            lane, call, item = place[:3]
            aad, text = self.items(lane, call)[item]
            if self.batch.lanes[lane][call]["word"] == "seal":
                full = number == c.limit
                reply = "limit" if full else f"sealed {number} {hexed(c.seal(number, aad, text))}"
            else:
                opened = c.open(number, aad, text)
                full = opened is None or number == c.limit
                reply = f"failed {number}" if opened is None else "limit" if full else f"opened {number} {hexed(opened)}"
            replies[place[:3]] = (number, reply)
            number += not full
        return number, replies

    # ---- the steps of a lane

    def steps(self, lane):
        for at, call in enumerate(self.batch.lanes[lane]):
            if call["word"] != "export" and not refusal(self.batch, self.contexts, call):
                context = call["context"]
                if call["word"] == "seal":
                    self.give(context, lane, at)
                    yield
                else:
                    self.guesses[lane, at] = self.due(context)[0]
                    yield
                    yield
                    self.give(context, lane, at)
                    yield
            yield

    def give(self, context, lane, call):
        for item in range(items_of(self.batch.lanes[lane][call])):
            self.journals[context].append((lane, call, item, self.given))
            self.given += 1

    def rehearse(self, schedule):
        lanes = [self.steps(lane) for lane in range(len(self.batch.lanes))]
        for lane in schedule:
            if lane < len(lanes):
                next(lanes[lane], None)
        for lane in lanes:
            for _ in lane:
                pass

    # ---- the text

    def call_lines(self, lane, at, replies):
        call = self.batch.lanes[lane][at]
        refused = refusal(self.batch, self.contexts, call)
        if refused:
            return [f"refused {refused}"]
        if call["word"] == "export":
            exported = self.contexts[call["context"]].export(call["exporter"], call["size"])
            return [f"exported {hexed(exported)}"]
        found = [replies[call["context"]][lane, at, item] for item in range(items_of(call))]
        lines = [reply for _, reply in found]
        if call["word"] == "unsealall":
            guess = self.guesses[lane, at]
            missed = sum(number not in [guess + i - k for k in range(min(i, 3) + 1)] for i, (number, _) in enumerate(found))
            lines.append(f"batch {guess} {missed}")
        return lines

    def text(self):
        replies = [self.due(context)[1] if c else {} for context, c in enumerate(self.contexts)]
        lines = [f"hpkebatch {self.batch.version}", *self.setup]
        for lane, calls in enumerate(self.batch.lanes):
            lines.append(f"lane {lane}")
            for at in range(len(calls)):
                lines += self.call_lines(lane, at, replies)
        for context, journal in enumerate(self.journals):
            lines.append(f"journal {context}")
            lines += [" ".join(map(str, place[: 2 + self.batch.version])) for place in journal]
        return "".join(f"{line}\n" for line in [*lines, "end"])


def answer(data, schedule):
    try:
        run = Run(read_batch(data))
    except Bad as bad:
        return f"{bad}\n", 3
    run.rehearse(schedule)
    return run.text(), 0


if __name__ == "__main__":
    command = sys.argv[1]
    given = sys.argv[2] if command == "rehearse" else "-"
    steps = [] if given == "-" else [int(step) for step in given.split(",")]
    data = sys.stdin.buffer.read()
    if command == "live":
        from live import answer_live  # (that stands on this file)

        reply, status = answer_live(data)
    elif command == "capsules":
        reply, status = answer_capsules(data)
    else:
        reply, status = answer(data, steps)
    sys.stdout.write(reply)
    sys.exit(status)
