"""The lines of crates.txt, by their crates."""

import re


def rows_in(text):
    """The lines of a crates.txt by their crates, in its order."""
    lines = [line for line in text.split("\n") if re.match(r"\w", line)]
    return {re.match(r"\w+", line)[0]: line for line in lines}


def with_those_below(names, rows):
    """These crates and those that they use, and so on."""
    found, left = set(), list(names)
    while left:
        name = left.pop()
        if name in rows and name not in found:
            found.add(name)
            left += rows[name].partition(":")[2].split()
    return found
