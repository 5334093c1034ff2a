"""The verdicts of `check` and `check --live`, by docs/FORMAT.md alone: the first thing that is wrong with a reply,
and in which order faults are looked for. `changed` spoils a reply."""

import live_verdicts
import judging
from judging import Wrong, cut, judge_calls, judge_guesses, judge_order, judge_places, serve, wrong
from live_verdicts import cut_live, is_live_history, is_table, notes_of

MOST = {
    judging.OPENING: (2**64 - 1, 4096),
    judging.PLACE[1]: (65535,) * 3,
    judging.PLACE[2]: (65535,) * 4,
    live_verdicts.LIVE_PLACE: (65535, 65535, 65535, 131071),
}


class FormLines(judging.Lines):
    """The lines of a reply: the first that hasn't its form is told, one without its end at its place."""

    def __init__(self, text):
        *self.lines, rest = text.split("\n")
        self.next, self.whole = 0, len(self.lines)
        if rest:
            self.lines.append(rest)

    def take(self):
        line, got = super().take()
        if line > self.whole:
            wrong(line, "has no end")
        return line, got

    def numbers(self, form, what):
        line, *numbers = super().numbers(form, what)
        if any(number > most for number, most in zip(numbers, MOST[form])):
            wrong(line, "has a number above its range")
        return line, *numbers


judging.Lines = FormLines


def holds(judge, *of):
    try:
        judge(*of)
    except Wrong:
        return False
    return True


def line_of(what):
    """The line that a `Wrong` names."""
    return int(str(what).split(" ")[1].rstrip(":"))


def is_journal(case, context, journal):
    stamps = [entry.stamp for entry in journal]
    rises = case.batch.version == 1 or all(one < other for one, other in zip(stamps, stamps[1:]))
    return rises and holds(judge_places, case, context, journal) and holds(judge_order, journal)


def is_history(journals):
    history = sorted((entry for journal in journals for entry in journal), key=lambda entry: entry.stamp)
    return [entry.stamp for entry in history] == [*range(len(history))] and holds(judge_order, history)


def wrong_guesses(reply, numbers):
    """The lines of the guesses that are wrong."""
    for journal, due in zip(reply.journals, numbers):
        for call, opening in reply.openings.items():
            if not holds(judge_guesses, journal, due, {call: opening}):
                yield opening.line


def first_wrong(case, reply, judge_calls):
    """The first reply or guess that is wrong, along journals that are legal."""
    replies = {}
    numbers = [serve(case, context, journal, replies) for context, journal in enumerate(reply.journals)]
    try:
        judge_calls(case, reply, replies)
    except Wrong as what:
        return f"reply {line_of(what)}"
    guesses = sorted(wrong_guesses(reply, numbers))
    return f"guess {guesses[0]}" if guesses else None


def verdict(case, text):
    """What `check` has to tell, without `broken`, or None where the reply is legal."""
    try:
        reply = cut(case, text)
    except Wrong as what:
        return f"form {line_of(what)}"
    for context, journal in enumerate(reply.journals):
        if not is_journal(case, context, journal):
            return f"journal {context}"
    if case.batch.version == 2 and not is_history(reply.journals):
        return "stamps"
    return first_wrong(case, reply, judge_calls)


def verdict_live(case, text):
    """The same of `check --live`."""
    case.look_up(notes_of(text))
    try:
        reply = cut_live(case, text)
    except Wrong as what:
        return f"form {line_of(what)}"
    for context, journal in enumerate(reply.journals):
        if not is_journal(case, context, journal):
            return case.names[context]
    if not is_table(case):
        return "table"
    if not is_live_history(case, reply.journals):
        return "stamps"
    return first_wrong(case, reply, live_verdicts.judge_calls)


def changed(source, text, at):
    """The text with the byte at a place changed, or in another way there."""
    chance = source.random()
    if chance < 0.05:
        return text[:at]
    if chance < 0.15:
        lines = text.split("\n")
        one = text.count("\n", 0, at)
        other = min(one + source.choice([1, 1, 2, 3]), len(lines) - 2)
        lines[one], lines[other] = lines[other], lines[one]
        return "\n".join(lines)
    other = source.choice([c for c in "\n 0123456789abcdefrj\xff" if c != text[at]])
    return text[:at] + other + text[at + 1 :]
