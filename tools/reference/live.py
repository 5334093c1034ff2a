"""Batches of `live`, whose lanes add and retire contexts: the reply of lanes that are served one after
another, and a judge of any reply. By docs/FORMAT.md alone."""

from batches import FIRST_NAME, Bad, items_of, read_batch
from contexts import psk_refusal
from hpkebatch import Run, refusal


class Wrong(Exception):
    """The first thing that is wrong with a reply."""


class LiveRun(Run):
    """A run whose calls have notes in a table: lane, call, whether the name was live, stamp."""

    def __init__(self, batch):
        super().__init__(batch)
        self.lines = len(batch.contexts) - batch.added
        self.setup = [line for line in self.setup if not self.is_of_added(line)]
        self.asked = [list(calls) for calls in batch.lanes]  # as they stand in the text
        self.table = []
        self.live = set()

    def is_of_added(self, line):
        word, number, *_ = line.split()
        return word == "context" and int(number) >= self.lines

    def noting(self, lane, at):
        """What a call does to which name, or None."""
        call = self.asked[lane][at]
        if call["word"] == "add":
            line = self.batch.contexts[self.lines + call["name"]]
            return None if psk_refusal(line) else ("add", call["name"])
        name = call["name"] if call["word"] == "retire" else call["context"] - FIRST_NAME
        if not 0 <= name < self.batch.added:
            return None
        return ("retire" if call["word"] == "retire" else "look"), name

    def place(self, lane, at, was_live):
        """Puts a call on the place of its context, or on none."""
        call = self.asked[lane][at]
        number = call.get("context")
        if number is None:
            return
        if number >= FIRST_NAME:
            number = self.lines + number - FIRST_NAME if was_live else len(self.contexts)
        elif number >= self.lines:
            number = len(self.contexts)
        self.batch.lanes[lane][at] = {**call, "context": number}

    def note(self, lane, at):
        noted = self.noting(lane, at)
        was_live = bool(noted) and noted[1] in self.live
        if noted:
            self.table.append((lane, at, was_live, self.given))
            self.given += 1
            act, name = noted
            if act == "add":
                self.live.add(name)
            elif act == "retire":
                self.live.discard(name)
        self.place(lane, at, was_live)

    def steps(self, lane):
        for at, call in enumerate(self.asked[lane]):
            self.note(lane, at)
            call = self.batch.lanes[lane][at]
            if call["word"] not in ("add", "retire", "export") and not refusal(self.batch, self.contexts, call):
                if call["word"] != "seal":
                    self.guesses[lane, at] = self.due(call["context"])[0]
                self.give(call["context"], lane, at)
            yield

    def call_lines(self, lane, at, replies):
        call = self.asked[lane][at]
        if call["word"] == "add":
            refused = psk_refusal(self.batch.contexts[self.lines + call["name"]])
            return [f"refused {refused}" if refused else "added"]
        if call["word"] == "retire":
            noted = {note[:2]: note[2] for note in self.table}
            return ["retired" if noted.get((lane, at)) else "refused nocontext"]
        return super().call_lines(lane, at, replies)

    def text(self):
        lines = super().text().split("\n")[:-2]
        for name in range(self.batch.added):
            lines[lines.index(f"journal {self.lines + name}")] = f"journal +{name}"
        lines.append("table")
        lines += [f"{lane} {at} {int(was_live)} {stamp}" for lane, at, was_live, stamp in self.table]
        return "".join(f"{line}\n" for line in [*lines, "end"])


def answer_live(data):
    """The reply, and the status, where the lanes are served one after another."""
    try:
        run = LiveRun(read_batch(data, is_live=True))
    except Bad as bad:
        return f"{bad}\n", 3
    run.rehearse([])
    return run.text(), 0


# ---- the judge


def cut(run, text):
    """Reads the journals and the table of a reply into the run, and gives the lines of its lanes."""
    lines = text.split("\n")
    if lines[-2:] != ["end", ""]:
        raise Wrong("no line 'end' at the end")
    tail = next((at for at, line in enumerate(lines) if line.startswith(("journal ", "table"))), None)
    if tail is None:
        raise Wrong("no journals and no table")
    names = [f"journal {c}" for c in range(run.lines)] + [f"journal +{k}" for k in range(run.batch.added)]
    into = None
    for line in lines[tail:-2]:
        if names and line == names[0]:
            into = run.journals[len(run.journals) - len(names)]
            names.pop(0)
        elif not names and line == "table" and into is not run.table:
            into = run.table
        elif into is None or not all(piece.isdigit() for piece in line.split(" ")) or line.count(" ") != 3:
            raise Wrong(f"{line!r} among the journals")
        else:
            into.append(tuple(map(int, line.split(" "))))
    if names or into is not run.table:
        raise Wrong("a journal or the table is missing")
    return lines[:tail]


def judge_table(run):
    due = {(lane, at) for lane, calls in enumerate(run.asked) for at in range(len(calls)) if run.noting(lane, at)}
    if sorted(due) != sorted(note[:2] for note in run.table):
        raise Wrong("not one note for each call that has one")
    live = set()
    for lane, at, told, _ in run.table:
        act, name = run.noting(lane, at)
        if told != (name in live):
            raise Wrong(f"the note of call {at} of lane {lane} is not what those before it leave")
        if act == "add":
            live.add(name)
        elif act == "retire":
            live.discard(name)


def judge_journals(run):
    for context, journal in enumerate(run.journals):
        served = [
            (lane, at, item)
            for lane, calls in enumerate(run.batch.lanes)
            for at, call in enumerate(calls)
            if call.get("context") == context and call["word"] != "export" and not refusal(run.batch, run.contexts, call)
            for item in range(items_of(call))
        ]
        places = [entry[:3] for entry in journal]
        if sorted(places) != served:
            raise Wrong(f"journal {context} has not each served place once")
        for one, next in zip(journal, journal[1:]):
            if next[2] and (one[:3] != (*next[:2], next[2] - 1) or one[3] + 1 != next[3]):
                raise Wrong(f"an opening is not in one block in journal {context}")
        if any(one[3] >= next[3] for one, next in zip(journal, journal[1:])):
            raise Wrong(f"the stamps of journal {context} don't rise")


def judge_history(run):
    entries = [(*entry[:2], 1 + entry[2], entry[3]) for journal in run.journals for entry in journal]
    entries += [(lane, at, 0, stamp) for lane, at, _, stamp in run.table]
    if sorted(stamp for *_, stamp in entries) != list(range(len(entries))):
        raise Wrong("the stamps are not the numbers from 0 on, each once")
    if any(one[3] >= next[3] for one, next in zip(run.table, run.table[1:])):
        raise Wrong("the stamps of the table don't rise")
    for lane in range(len(run.batch.lanes)):
        own = sorted(entry[1:] for entry in entries if entry[0] == lane)
        if any(one[2] >= next[2] for one, next in zip(own, own[1:])):
            raise Wrong(f"the stamps of lane {lane} don't rise by call and item")


def read_guesses(run, lines):
    """Takes the guesses out of the lanes' lines, and tests that each may have been made."""
    openings = [
        (lane, at)
        for lane, calls in enumerate(run.batch.lanes)
        for at, call in enumerate(calls)
        if call["word"] == "unsealall" and not refusal(run.batch, run.contexts, call)
    ]
    told = [line.split(" ") for line in lines if line.startswith("batch ")]
    if len(told) != len(openings):
        raise Wrong("not one guess for each opening of several messages that is served")
    for (lane, at), (_, guess, _) in zip(openings, told):
        run.guesses[lane, at] = int(guess)
        context = run.batch.lanes[lane][at]["context"]
        places = [entry[:3] for entry in run.journals[context]]
        own = places.index((lane, at, 0))
        earlier = [k for k, place in enumerate(places) if place[0] == lane and place[1] < at]
        least = earlier[-1] + 1 if earlier else 0
        if not any(run.due(context, k)[0] == int(guess) for k in range(least, own + 1)):
            raise Wrong(f"the guess of call {at} of lane {lane} can't have been made")


def judge_live(data, text):
    """Raises what is first wrong with a reply to a batch that is no bad one."""
    run = LiveRun(read_batch(data, is_live=True))
    lines = cut(run, text)
    judge_table(run)
    told = {note[:2]: bool(note[2]) for note in run.table}
    run.table = [(lane, at, bool(bit), stamp) for lane, at, bit, stamp in run.table]
    for lane, calls in enumerate(run.asked):
        for at in range(len(calls)):
            run.place(lane, at, told.get((lane, at), False))
    judge_journals(run)
    judge_history(run)
    read_guesses(run, lines)
    due = run.text()
    if due != text:
        at = next(k for k, (one, other) in enumerate(zip(due + "\n", text + "\n")) if one != other)
        raise Wrong(f"{text[max(at - 40, 0):at + 40]!r} where {due[max(at - 40, 0):at + 40]!r} is due")
