"""Judges a reply to a batch by docs/FORMAT.md alone: whether threads may have answered so.

Which journals and guesses a run has depends on its threads. So they are read out of the reply itself. In this
order are judged: which lines there are, the journals, their one history, each reply, which the contexts of the
second program compute again along its journal, and the guesses.
"""

import re
from collections import defaultdict
from dataclasses import dataclass, field

from batches import Bad, items_of, read_batch
from hpkebatch import Run, hexed, refusal

NUMBER = "(0|[1-9][0-9]{0,19})"
OPENING = re.compile(f"batch {NUMBER} {NUMBER}")
PLACE = {1: re.compile(" ".join([NUMBER] * 3)), 2: re.compile(" ".join([NUMBER] * 4))}


class Wrong(Exception):
    """The first thing that is wrong with a reply."""


def wrong(line, what):
    """Of a line of the reply, counted from 1."""
    raise Wrong(f"line {line}: {what}")


def compare(line, due, got):
    """Shows the lines from shortly before their first difference on."""
    if got == due:
        return
    at = next((k for k, (one, other) in enumerate(zip(due, got)) if one != other), min(len(due), len(got)))
    start = at - 10 if at > 40 else 0
    behind = f", behind {start} characters that are right" if start else ""
    wrong(line, f"{got[start : start + 60]!r} where {due[start : start + 60]!r} is due{behind}")


@dataclass
class Entry:
    """A line of a journal."""

    line: int
    place: tuple  # lane, call, item
    stamp: int | None


@dataclass
class Opening:
    """The line that ends the reply to an `unsealall`, with the count of its items."""

    line: int
    guess: int
    missed: int
    count: int


@dataclass
class Reply:
    """A reply, cut by what the batch makes its lines be."""

    calls: dict = field(default_factory=dict)  # by lane and call: its first line, and its lines but `batch G M`
    openings: dict = field(default_factory=dict)  # by lane and call
    journals: list = field(default_factory=list)  # lists of entries


class Case:
    """A batch with its set-up, and what this alone tells of the calls."""

    def __init__(self, batch):
        self.run, self.batch = Run(batch), batch
        self.calls = [(lane, at, call) for lane, calls in enumerate(batch.lanes) for at, call in enumerate(calls)]
        self.refusals = {(lane, at): refusal(batch, self.run.contexts, call) for lane, at, call in self.calls}
        self.served = defaultdict(set)  # by context: its places
        for lane, at, call in self.calls:
            if self.is_served(lane, at):
                self.served[call["context"]].update((lane, at, item) for item in range(items_of(call)))

    def is_served(self, lane, at):
        """Whether the items of a call stand in a journal."""
        return self.batch.lanes[lane][at]["word"] != "export" and self.refusals[lane, at] is None


# ---- cutting the text


class Lines:
    def __init__(self, text):
        *self.lines, rest = text.split("\n")
        self.next = 0
        if rest:
            wrong(len(self.lines) + 1, "has no end")

    def take(self):
        """The number of the next line, and the line."""
        if self.next == len(self.lines):
            wrong(self.next + 1, "is missing")
        self.next += 1
        return self.next, self.lines[self.next - 1]

    def want(self, wanted):
        line, got = self.take()
        compare(line, wanted, got)

    def numbers(self, form, what):
        """The number of the next line, and the numbers that stand in it."""
        line, got = self.take()
        found = form.fullmatch(got)
        if not found:
            wrong(line, f"{got[:60]!r} where {what} is due")
        return line, *map(int, found.groups())

    def in_journal(self):
        return self.next < len(self.lines) and self.lines[self.next][:1] not in ("j", "e")


def cut(case, text):
    lines, reply, version = Lines(text), Reply(), case.batch.version
    for wanted in [f"hpkebatch {version}", *case.run.setup]:
        lines.want(wanted)
    for lane, calls in enumerate(case.batch.lanes):
        lines.want(f"lane {lane}")
        for at, call in enumerate(calls):
            count = items_of(call) if case.is_served(lane, at) else 1
            own = [lines.take() for _ in range(count)]
            reply.calls[lane, at] = own[0][0], [got for _, got in own]
            if call["word"] == "unsealall" and case.is_served(lane, at):
                reply.openings[lane, at] = Opening(*lines.numbers(OPENING, "'batch G M'"), count)
    for context in range(len(case.run.contexts)):
        lines.want(f"journal {context}")
        reply.journals.append([])
        while lines.in_journal():
            line, *place = lines.numbers(PLACE[version], "a place")
            reply.journals[-1].append(Entry(line, tuple(place[:3]), place[3] if version == 2 else None))
    lines.want("end")
    if lines.next < len(lines.lines):
        wrong(lines.next + 1, "stands behind the end")
    return reply


# ---- legal journals


def judge_places(case, context, journal):
    """Each item that the context serves stands in its journal once, and nothing else."""
    left = set(case.served[context])
    for entry in journal:
        if entry.place not in left:
            wrong(entry.line, f"a place that journal {context} doesn't serve, or that stands in it already")
        left.remove(entry.place)
    if left:
        lane, at, item = min(left)
        raise Wrong(f"journal {context}: the place {lane} {at} {item} is missing")


def judge_order(entries):
    """The places of each lane stand in its order, and those of one opening side by side."""
    last = {}  # by lane
    for before, entry in zip([None, *entries], entries):
        lane, at, item = entry.place
        if lane in last and last[lane] >= (at, item):
            wrong(entry.line, f"is out of the order of lane {lane}")
        if item and (before is None or before.place != (lane, at, item - 1)):
            wrong(entry.line, f"is torn from the opening that is call {at} of lane {lane}")
        last[lane] = at, item


def judge_history(journals):
    """By their stamps, 0 to n - 1, the places of all journals are one history."""
    for context, journal in enumerate(journals):
        for before, entry in zip(journal, journal[1:]):
            if before.stamp >= entry.stamp:
                wrong(entry.line, f"its stamp doesn't rise in journal {context}")
    history = sorted((entry for journal in journals for entry in journal), key=lambda entry: entry.stamp)
    for stamp, entry in enumerate(history):
        if entry.stamp != stamp:
            wrong(entry.line, f"its stamp is {entry.stamp}, where {stamp} is the next of the history")
    judge_order(history)


# ---- the replies along a journal


def answer(context, number, word, aad, text):
    """The reply to an item where this number is due, and whether it uses the number."""
    if word == "seal":
        if number == context.limit:
            return "limit", False
        return f"sealed {number} {hexed(context.seal(number, aad, text))}", True
    opened = context.open(number, aad, text)
    if opened is None:
        return f"failed {number}", False
    return ("limit", False) if number == context.limit else (f"opened {number} {hexed(opened)}", True)


def serve(case, context, journal, replies):
    """Puts the reply of each place of a journal into `replies`. Gives the numbers that are due after none of
    its places, after the first, and so on to all of them."""
    numbers = [0]
    for entry in journal:
        lane, at, item = entry.place
        aad, text = case.run.items(lane, at)[item]
        word = case.batch.lanes[lane][at]["word"]
        replies[entry.place], advances = answer(case.run.contexts[context], numbers[-1], word, aad, text)
        numbers.append(numbers[-1] + advances)
    return numbers


def judge_guesses(journal, numbers, openings):
    """Each guess was due after a part of the journal that has all earlier places of its lane and ends before
    its own, and behind it stands the count of the items that it missed."""
    part = defaultdict(int)  # by lane: how long the part is that ends with its last place
    for start, entry in enumerate(journal):
        lane, at, item = entry.place
        opening = openings.get((lane, at))
        if opening and item == 0:
            if opening.guess not in numbers[part[lane] : start + 1]:
                wrong(opening.line, f"{opening.guess} wasn't due where the guess was made")
            missed = 0
            for i in range(opening.count):
                tested = [opening.guess + i - k for k in range(min(i, 3) + 1)]
                missed += numbers[start + i] not in tested
            if opening.missed != missed:
                wrong(opening.line, f"{opening.missed} items are told as missed where {missed} were")
        part[lane] = start + 1


def judge_calls(case, reply, replies):
    for lane, at, call in case.calls:
        line, got = reply.calls[lane, at]
        if case.refusals[lane, at]:
            due = [f"refused {case.refusals[lane, at]}"]
        elif call["word"] == "export":
            exported = case.run.contexts[call["context"]].export(call["exporter"], call["size"])
            due = [f"exported {hexed(exported)}"]
        else:
            due = [replies[lane, at, item] for item in range(items_of(call))]
        for k, (wanted, found) in enumerate(zip(due, got)):
            compare(line + k, wanted, found)


def judge_whole(case, reply, text):
    """The text is the one that the second program writes of these journals and guesses."""
    case.run.journals = [[(*entry.place, entry.stamp) for entry in journal] for journal in reply.journals]
    case.run.guesses = {call: opening.guess for call, opening in reply.openings.items()}
    if case.run.text() != text:
        raise Wrong("the second program writes another text of these journals and guesses")


def judge_reply(case, text):
    reply, replies = cut(case, text), {}
    for context, journal in enumerate(reply.journals):
        judge_places(case, context, journal)
        judge_order(journal)
    if case.batch.version == 2:
        judge_history(reply.journals)
    numbers = [serve(case, context, journal, replies) for context, journal in enumerate(reply.journals)]
    judge_calls(case, reply, replies)
    for journal, due in zip(reply.journals, numbers):
        judge_guesses(journal, due, reply.openings)
    judge_whole(case, reply, text)


def judge(data, text):
    """What is wrong with a reply to a batch, or None."""
    try:
        case = Case(read_batch(data))
    except Bad as bad:
        return None if text == f"{bad}\n" else f"line 1: '{bad}' is due, and nothing else"
    try:
        judge_reply(case, text)
    except Wrong as what:
        return str(what)
    return None
