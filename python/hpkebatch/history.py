"""Draws the journals of a reply as a picture: a row for each lane, a column for each step, a colour for each context.

The reply is read without its batch: its journals say how many items each call has.
"""

from __future__ import annotations

from dataclasses import dataclass
from html import escape as escape_html
from typing import Dict, Iterator, List, Tuple

from .errors import ReplyError
from .lines import Lines
from .reply import rows_at

COLUMNS = 24  # of one band of the picture
WIDTH, HEIGHT, LEFT = 56, 40, 76
NO_STAMPS = "Version 1 has no stamps: only the order in a lane, and within a colour, is known."
PALETTE = ("#8ecae6", "#ffd27f", "#b5e2a8", "#e3b7e8", "#f7b5a6", "#a8dcd9", "#d9cfa3", "#c0c6f2", "#f4c6da", "#cfd4d9")


@dataclass
class Step:
    """A place of a journal, or a note of the table."""

    lane: int
    call: int
    item: int
    context: str
    kind: str = ""  # sealed, opened, failed, limit, retired, added, look
    at: int = 0  # its column: the stamp, where there are stamps
    number: int = 0  # the sequence number that is due there
    is_stale: bool = False
    is_live: bool = True  # of a note
    is_opening: bool = False  # an item of an `unsealall`


@dataclass
class History:
    version: int
    contexts: Dict[str, str]  # how each context stands in its line
    steps: List[Step]  # in the order of their columns
    others: int  # calls that stand in no journal


def escape(text: str) -> str:
    return escape_html(text, quote=False)


# ---- reading


def read_history(text: bytes) -> History:
    """The journals of a reply, with what was answered at each place."""
    lines = Lines(text)
    version = {b"hpkebatch 1": 1, b"hpkebatch 2": 2}.get(lines[0])
    if version is None:
        raise ReplyError(1, "a line `hpkebatch 1` or `hpkebatch 2` should stand here")
    at, contexts = _set_up(lines)
    at, lanes = _lanes(lines, at)
    steps, notes = _journals(lines, at, 3 if version == 1 else 4)
    others = _answer(lanes, steps, notes)
    for name in {step.context for step in steps + notes}:
        contexts.setdefault(name, "added")
    if version == 1:
        _put_in_columns(steps)
    return History(version, contexts, sorted(steps + notes, key=lambda it: (it.at, it.lane)), others)


def _set_up(lines: Lines) -> Tuple[int, Dict[str, str]]:
    at, contexts = 1, {}
    while lines[at].startswith((b"key ", b"context ")):
        pieces = lines[at].decode("ascii", "replace").split(" ")
        if pieces[0] == "context" and len(pieces) > 2:
            contexts[pieces[1]] = pieces[2]
        at += 1
    return at, contexts


def _lanes(lines: Lines, at: int) -> Tuple[int, List[List[Tuple[int, List[bytes]]]]]:
    """The lines of each lane, with their numbers and pieces."""
    lanes: List[List[Tuple[int, List[bytes]]]] = []
    while not lines[at].startswith((b"journal ", b"table", b"end")):
        if lines[at] == b"lane %d" % len(lanes):
            lanes.append([])
        elif lanes:
            lanes[-1].append((at + 1, lines[at].split(b" ")))
        else:
            raise ReplyError(at + 1, "a line of a lane or a journal should stand here")
        at += 1
    return at, lanes


def _journals(lines: Lines, at: int, width: int) -> Tuple[List[Step], List[Step]]:
    steps: List[Step] = []
    notes: List[Step] = []
    while lines[at] != b"end":
        head = lines[at].decode("ascii", "replace")
        rows, end = rows_at(lines, at + 1, width)
        if head.startswith("journal "):
            steps += [Step(row[0], row[1], row[2], head[8:], at=row[-1]) for row in rows]
        elif head == "table":
            notes += [Step(row[0], row[1], 0, "", "look", row[3], is_live=bool(row[2])) for row in rows]
        else:
            raise ReplyError(at + 1, "a journal, the table or `end` should stand here")
        at = end
    return steps, notes


def _answer(lanes: List[List[Tuple[int, List[bytes]]]], steps: List[Step], notes: List[Step]) -> int:
    """Notes at each step what was answered there; the result is how many calls have no step."""
    by_call: Dict[Tuple[int, int], List[Step]] = {}
    for step in steps:
        by_call.setdefault((step.lane, step.call), []).append(step)
    looks = {(note.lane, note.call): note for note in notes}
    numbers: Dict[str, int] = {}
    guesses: List[Tuple[List[Step], int]] = []
    others = 0
    for lane, answers in enumerate(lanes):
        call = at = 0
        while at < len(answers):
            items = by_call.get((lane, call), [])
            words = [pieces[0].decode("ascii", "replace") for _, pieces in answers[at : at + max(1, len(items))]]
            for step, word in zip(items, words):
                step.kind = word
            note = looks.get((lane, call))
            if note is not None:
                note.kind = {"added": "added", "retired": "retired"}.get(words[0], "look")
                note.context = items[0].context if items else ""
            others += not items and note is None
            at += len(words)
            if items and at < len(answers) and answers[at][1][0] == b"batch" and len(answers[at][1]) == 3:
                guesses.append((items, int(answers[at][1][1])))
                at += 1
            call += 1
    for step in steps:
        if step.kind not in ("sealed", "opened", "failed", "limit"):
            raise ReplyError(1, f"its journals name an item that isn't answered: call {step.call} of lane {step.lane}")
        step.number = numbers.get(step.context, 0)
        numbers[step.context] = step.number + (step.kind in ("sealed", "opened"))
    for items, guess in guesses:
        for step in items:
            step.is_opening = True
            # The tag was tested at this many numbers up to guess + item.
            step.is_stale = not 0 <= guess + step.item - step.number <= min(step.item, 3)
    return others


def _put_in_columns(steps: List[Step]) -> None:
    """Without stamps: each step behind those before it in its lane and in its journal."""
    before: Dict[int, List[int]] = {place: [] for place in range(len(steps))}
    behind: Dict[int, int] = {place: 0 for place in range(len(steps))}
    by_lane = sorted(range(len(steps)), key=lambda it: (steps[it].lane, steps[it].call, steps[it].item))
    pairs = [(a, b) for a, b in zip(by_lane, by_lane[1:]) if steps[a].lane == steps[b].lane]
    pairs += [(a, a + 1) for a in range(len(steps) - 1) if steps[a].context == steps[a + 1].context]
    for first, second in pairs:
        before[first].append(second)
        behind[second] += 1
    ready = [place for place, count in behind.items() if count == 0]
    for step in steps:
        step.at = 0
    for place in ready:
        for other in before[place]:
            steps[other].at = max(steps[other].at, steps[place].at + 1)
            behind[other] -= 1
            if behind[other] == 0:
                ready.append(other)
    if len(ready) != len(steps):
        raise ReplyError(1, "no order of the steps fits its journals and its lanes")


# ---- drawing


def draw(text: bytes, name: str, first: int = 0, count: int = 200) -> str:
    """The picture, as SVG, of `count` columns from `first` on."""
    history = read_history(text)
    columns = max((step.at for step in history.steps), default=-1) + 1
    last = min(first + count, columns)
    shown = [step for step in history.steps if first <= step.at < last]
    lanes = sorted({step.lane for step in shown})
    legend = list(_legend(history, shown))
    top = 74 + 24 * len(legend)
    bands = -(-max(0, last - first) // COLUMNS)
    height_of_band = HEIGHT * len(lanes) + 34
    width, height = LEFT + WIDTH * COLUMNS + 20, top + bands * height_of_band + 10
    what = f"steps {first:,} to {last - 1:,} of {columns:,}" if shown else "no steps"
    if len(range(first, last)) < columns:
        what += " (--first and --count choose others)"
    order = "In the order of their stamps." if history.version == 2 else NO_STAMPS
    parts = [
        f'<svg xmlns="http://www.w3.org/2000/svg" width="{width}" height="{height}" viewBox="0 0 {width} {height}" '
        'font-family="DejaVu Sans, Arial, sans-serif" font-size="12">',
        f'<rect width="{width}" height="{height}" fill="#ffffff"/>',
        _text(16, 28, f"Journals of {name}: {what}", size=18, weight="bold"),
        _text(16, 50, f"{order} {_others(history.others)}", fill="#555555"),
    ]
    for row, cells in enumerate(legend):
        parts += [_moved(16 + 210 * place, 64 + 24 * row, cell) for place, cell in enumerate(cells)]
    colours = _colours(history)
    for band in range(bands):
        start = first + band * COLUMNS
        some = [step for step in shown if start <= step.at < start + COLUMNS]
        inner = "\n".join(_band(some, lanes, start, min(start + COLUMNS, last), colours))
        parts.append(_moved(0, top + band * height_of_band, inner))
    return "\n".join([*parts, "</svg>", ""])


def _others(count: int) -> str:
    if count == 0:
        return "Every call is drawn."
    return f"{count:,} exports and refused calls stand in no journal, and aren't drawn."


def _colours(history: History) -> Dict[str, str]:
    return {name: PALETTE[place % len(PALETTE)] for place, name in enumerate(sorted(history.contexts, key=_by_number))}


def _by_number(name: str) -> Tuple[bool, int]:
    digits = name.lstrip("+")
    return name.startswith("+"), int(digits) if digits.isdigit() else 0


def _band(steps: List[Step], lanes: List[int], start: int, end: int, colours: Dict[str, str]) -> Iterator[str]:
    right = LEFT + WIDTH * (end - start)
    for column in range(start, end):
        if column % 4 == 0:
            x = LEFT + WIDTH * (column - start)
            yield _text(x + 3, 12, f"{column:,}", fill="#777777", size=10)
            yield f'<line x1="{x}" y1="4" x2="{x}" y2="{18 + HEIGHT * len(lanes)}" stroke="#dddddd"/>'
    for row, lane in enumerate(lanes):
        y = 18 + HEIGHT * row
        yield _text(16, y + HEIGHT / 2 + 4, f"lane {lane}", weight="bold")
        yield f'<line x1="{LEFT}" y1="{y + HEIGHT / 2}" x2="{right}" y2="{y + HEIGHT / 2}" stroke="#cccccc"/>'
    for step in steps:
        x, y = LEFT + WIDTH * (step.at - start), 18 + HEIGHT * lanes.index(step.lane)
        yield _moved(x, y, _cell(step, colours.get(step.context, "#eeeeee")))


def _cell(step: Step, colour: str) -> str:
    call = f"call {step.call}" + (f".{step.item}" if step.is_opening else "")
    hover = f"<title>{escape(_told(step))}</title>"
    middle = WIDTH / 2
    if step.kind in ("added", "retired", "look"):
        return hover + _note(step) + _text(middle, HEIGHT - 6, call, size=9, anchor="middle")
    is_given = step.kind in ("sealed", "opened")
    edge, dash = ("#d35400", ' stroke-dasharray="5 3"') if step.is_stale else ("#444444", "")
    box = (
        f'<rect x="2" y="3" width="{WIDTH - 4}" height="{HEIGHT - 6}" rx="4" fill="{colour}" '
        f'stroke="{edge}" stroke-width="{2.5 if step.is_stale else 1}"{dash}/>'
    )
    if not is_given:
        box += f'<rect x="6" y="6" width="{WIDTH - 12}" height="15" fill="#ffffff"/>'
    fill = "#000000" if is_given else "#c0392b"
    head = f"#{step.number}" if is_given else {"failed": f"✗ #{step.number}", "limit": "limit"}[step.kind]
    arrow = {"sealed": "↑", "opened": "↓"}.get(step.kind, "")
    return "".join(
        [
            hover,
            box,
            _text(middle, 18, f"{arrow}{head}", size=12, weight="bold", anchor="middle", fill=fill),
            _text(middle, 31, call, size=9, anchor="middle"),
        ]
    )


def _note(step: Step) -> str:
    middle = WIDTH / 2
    fill = "#2c7a3f" if step.is_live else "#ffffff"
    if step.kind == "look":
        return f'<circle cx="{middle}" cy="14" r="6" fill="{fill}" stroke="#2c7a3f" stroke-width="2"/>'
    points = "0,12 8,0 16,12" if step.kind == "added" else "0,0 16,0 8,12"
    return f'<polygon transform="translate({middle - 8},8)" points="{points}" fill="#2c7a3f"/>'


def _told(step: Step) -> str:
    where = f"step {step.at}: lane {step.lane}, call {step.call}"
    if step.kind == "look":
        return f"{where} looks for an added context, which is {'live' if step.is_live else 'not live'}"
    if step.kind in ("added", "retired"):
        return f"{where}: a context is {step.kind}"
    stale = "; its guess was stale" if step.is_stale else ""
    return f"{where}, item {step.item}, context {step.context}: {step.kind} at number {step.number}{stale}"


def _legend(history: History, shown: List[Step]) -> Iterator[List[str]]:
    colours = _colours(history)
    used = sorted({step.context for step in shown if step.context}, key=_by_number)
    swatches = [
        f'<rect y="3" width="26" height="14" rx="3" fill="{colours[name]}" stroke="#444444"/>'
        + _text(34, 15, f"context {name} ({history.contexts[name]})")
        for name in used
    ]
    kinds = {step.kind for step in shown}
    marks = []
    if "sealed" in kinds:
        marks.append(_mark("↑#3", "sealed as number 3"))
    if "opened" in kinds:
        marks.append(_mark("↓#3", "opened as number 3"))
    if "failed" in kinds:
        marks.append(_mark("✗ #3", "failed at number 3", "#c0392b"))
    if "limit" in kinds:
        marks.append(_mark("limit", "the LIMIT is reached", "#c0392b"))
    if any(step.is_opening for step in shown):
        marks.append(_mark("2.1", "item 1 of call 2"))
    if any(step.is_stale for step in shown):
        box = '<rect y="3" width="26" height="14" rx="3" fill="none" stroke="#d35400" stroke-width="2.5" stroke-dasharray="5 3"/>'
        marks.append(box + _text(34, 15, "the guess was stale"))
    notes = [step for step in shown if step.kind in ("added", "retired", "look")]
    for kind, is_live, says in (
        ("added", None, "adds a context"),
        ("retired", None, "retires a context"),
        ("look", True, "looks: it is live"),
        ("look", False, "looks: it isn't live"),
    ):
        if any(step.kind == kind and is_live in (None, step.is_live) for step in notes):
            marks.append(_moved(-14, -3, _note(Step(0, 0, 0, "", kind, is_live=is_live is True))) + _text(34, 15, says))
    for cells in (swatches, marks):
        yield from (cells[at : at + 6] for at in range(0, len(cells), 6))


def _mark(sign: str, says: str, fill: str = "#000000") -> str:
    return _text(0, 15, sign, weight="bold", fill=fill) + _text(42, 15, says)


def _moved(x: float, y: float, inner: str) -> str:
    return f'<g transform="translate({x},{y})">{inner}</g>'


def _text(
    x: float, y: float, says: str, *, size: int = 12, weight: str = "normal", anchor: str = "start", fill: str = "#000000"
) -> str:
    how = f'font-size="{size}" font-weight="{weight}" text-anchor="{anchor}" fill="{fill}"'
    return f'<text x="{x}" y="{y}" {how}>{escape(says)}</text>'
