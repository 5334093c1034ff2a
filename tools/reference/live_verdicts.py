"""The verdict of `check --live` on a reply, by docs/FORMAT.md alone.

The notes of the table say which calls found their contexts, and so which lines the calls have. They are read
first: they stand behind the first line `table`.
"""

import re
from collections import defaultdict
from dataclasses import dataclass

import judging
from batches import read_batch
from contexts import psk_refusal
from hpkebatch import items_of, refusal
from judging import NUMBER, OPENING, Case, Entry, Opening, Reply, Wrong, compare, wrong
from live import LiveRun

NOTE = re.compile(f"{NUMBER} {NUMBER} ([01]) {NUMBER}")
LIVE_PLACE = re.compile(f"{NUMBER} {NUMBER} {NUMBER} (?:){NUMBER}")  # unlike that of `run`: its stamp may be greater
MOST_COORDINATE, MOST_STAMP = 65535, 131071  # at most 65,536 items, and a note for each call
MOST_NOTES = 131072


@dataclass
class Note:
    call: tuple  # lane, call
    live: bool
    stamp: int


def notes_of(text):
    parts = text.split("\n")
    behind = parts[parts.index("table") + 1 :] if "table" in parts else []
    notes = []
    for line in behind[:-1][:MOST_NOTES]:
        found = NOTE.fullmatch(line)
        lane, at, bit, stamp = map(int, found.groups()) if found else (0, 0, 0, MOST_STAMP + 1)
        if max(lane, at) > MOST_COORDINATE or stamp > MOST_STAMP:
            break
        notes.append(Note((lane, at), bit == 1, stamp))
    return notes


class LiveCase(Case):
    """A batch of `live` with its set-up. Which calls it serves depends on the notes."""

    def __init__(self, data):
        self.run = LiveRun(read_batch(data, is_live=True))
        self.batch = self.run.batch
        self.names = [f"journal {c}" for c in range(self.run.lines)]
        self.names += [f"journal +{k}" for k in range(self.batch.added)]

    def look_up(self, notes):
        self.notes, self.live = notes, {note.call for note in notes if note.live}
        for lane, calls in enumerate(self.run.asked):
            for at in range(len(calls)):
                self.run.place(lane, at, (lane, at) in self.live)
        self.calls = [(lane, at, call) for lane, calls in enumerate(self.batch.lanes) for at, call in enumerate(calls)]
        self.refusals = {(lane, at): self.refusal(lane, at, call) for lane, at, call in self.calls}
        self.served = defaultdict(set)
        for lane, at, call in self.calls:
            if self.is_served(lane, at):
                self.served[call["context"]].update((lane, at, item) for item in range(items_of(call)))

    def refusal(self, lane, at, call):
        if call["word"] == "add":
            return psk_refusal(self.batch.contexts[self.run.lines + call["name"]])
        if call["word"] == "retire":
            return None if (lane, at) in self.live else "nocontext"
        return refusal(self.batch, self.run.contexts, call)

    def is_served(self, lane, at):
        return self.batch.lanes[lane][at]["word"] in ("seal", "unseal", "unsealall") and self.refusals[lane, at] is None


def cut_live(case, text):
    """The lines of a reply, which follow from the batch and from the notes."""
    lines, reply = judging.Lines(text), Reply()
    for wanted in ["hpkebatch 2", *case.run.setup]:
        lines.want(wanted)
    for lane, calls in enumerate(case.batch.lanes):
        lines.want(f"lane {lane}")
        for at, call in enumerate(calls):
            count = items_of(call) if case.is_served(lane, at) else 1
            own = [lines.take() for _ in range(count)]
            reply.calls[lane, at] = own[0][0], [got for _, got in own]
            if call["word"] == "unsealall" and case.is_served(lane, at):
                reply.openings[lane, at] = Opening(*lines.numbers(OPENING, "'batch G M'"), count)
    for name in case.names:
        lines.want(name)
        reply.journals.append([])
        while lines.next < len(lines.lines) and lines.lines[lines.next][:1] not in ("j", "t", "e"):
            line, *place = lines.numbers(LIVE_PLACE, "a place")
            reply.journals[-1].append(Entry(line, tuple(place[:3]), place[3]))
    lines.want("table")
    for note in case.notes:
        lines.want(f"{note.call[0]} {note.call[1]} {int(note.live)} {note.stamp}")
    lines.want("end")
    if lines.next < len(lines.lines):
        wrong(lines.next + 1, "stands behind the end")
    return reply


def rises(numbers):
    return all(one < other for one, other in zip(numbers, numbers[1:]))


def is_table(case):
    """Each call that has a note has one and no other has, in the order of each lane and of the stamps, and each
    tells whether its name was live after the notes before it."""
    noted = [(lane, at) for lane, calls in enumerate(case.run.asked) for at in range(len(calls)) if case.run.noting(lane, at)]
    told = [note.call for note in case.notes]
    lanes = [[call for call in told if call[0] == lane] for lane in range(len(case.batch.lanes))]
    if sorted(told) != noted or not all(map(rises, lanes)) or not rises([note.stamp for note in case.notes]):
        return False
    live = set()
    for note in case.notes:
        act, name = case.run.noting(*note.call)
        if note.live != (name in live):
            return False
        (live.add if act == "add" else live.discard if act == "retire" else live.__contains__)(name)
    return True


def is_live_history(case, journals):
    """All stamps are the numbers from 0 on, each once. In their order each lane's calls stand one after another, a
    call's note before its items, and the items of a call side by side."""
    history = {entry.stamp: (*entry.place[:2], 1, entry.place[2]) for journal in journals for entry in journal}
    history.update({note.stamp: (*note.call, 0, 0) for note in case.notes})
    if len(history) != sum(map(len, journals)) + len(case.notes) or sorted(history) != [*range(len(history))]:
        return False
    events = [history[stamp] for stamp in range(len(history))]
    for before, event in zip([None, *events], events):
        if event[3] and before != (*event[:3], event[3] - 1):
            return False
    return all(rises([event[1:] for event in events if event[0] == lane]) for lane in range(len(case.batch.lanes)))


def judge_calls(case, reply, replies):
    for lane, at, call in case.calls:
        line, got = reply.calls[lane, at]
        if case.refusals[lane, at]:
            due = [f"refused {case.refusals[lane, at]}"]
        elif call["word"] in ("add", "retire"):
            due = [{"add": "added", "retire": "retired"}[call["word"]]]
        elif call["word"] == "export":
            exported = case.run.contexts[call["context"]].export(call["exporter"], call["size"])
            due = [f"exported {exported.hex() or '-'}"]
        else:
            due = [replies[lane, at, item] for item in range(items_of(call))]
        for k, (wanted, found) in enumerate(zip(due, got)):
            compare(line + k, wanted, found)
