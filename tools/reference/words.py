"""The command grammar of docs/FORMAT.md, over lists of words of bytes."""

import re

WORKERS = rb"[1-9]|1[0-6]"
MULT = rb"plain|karatsuba|lanes"
STEP = rb"(?:[0-9]|1[0-5])"
SCHEDULE = rb"-|" + STEP + rb"(?:," + STEP + rb"){0,65535}"


def is_number(word, least, most):
    return re.fullmatch(rb"0|[1-9][0-9]*", word) is not None and least <= int(word) <= most


def options_of(words):
    """The names of the options, in their order, or None where something else stands among them."""
    names = []
    while words:
        name, sign, value = words[0].partition(b"=")
        if not sign:
            words = words[1:]
            value = words[0] if words else b""
        form = {b"--workers": WORKERS, b"--mult": MULT}.get(name)
        if form is None or not re.fullmatch(form, value):
            return None
        names.append(name)
        words = words[1:]
    return names


def without_live(words):
    """The words but for a `--live` before or behind them."""
    if words[:1] == [b"--live"]:
        return words[1:]
    return words[:-1] if words[-1:] == [b"--live"] else words


def is_command(words):
    if words[:1] in ([b"run"], [b"live"]):
        names = options_of(words[1:])
        return names is not None and len(names) == len(set(names))
    if words[:1] == [b"check"]:
        return options_of(without_live(words[1:])) in ([], [b"--mult"])
    if words[:1] == [b"capsules"]:
        return options_of(words[1:]) in ([], [b"--mult"])
    if words[:1] == [b"demo"]:
        ranges = (0, 2**64 - 1), (1, 65_536), (1, 16)
        return len(words) == 4 and all(is_number(word, *of) for word, of in zip(words[1:], ranges))
    return len(words) == 2 and words[0] == b"rehearse" and re.fullmatch(SCHEDULE, words[1]) is not None
