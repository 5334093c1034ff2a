#!/usr/bin/env python3
"""The pages of a package: their links lead to packed files, and a file that isn't packed is named by its path.

    tools/packages/pages.py FOLDER

tells each link in the pages below FOLDER that leads to no file.
"""
import os
import re
import sys

LINK = re.compile(r"!?\[([^\]]*)\]\(([^)\s]+)\)")


def packed(text, page, places, revision):
    """The text of a page as it is packed: `page` is its path in the repository, and `places` has for the path of each
    file that is packed the one in the package."""
    folder, is_block, lines, missing = os.path.dirname(places[page]), False, [], 0

    def link(found):
        nonlocal missing
        words, target = found.groups()
        name, mark, anchor = target.partition("#")
        path = os.path.normpath(os.path.join(os.path.dirname(page), name))
        if not name or re.match(r"[a-z]+:", target):
            return found[0]
        if path in places:
            return f"[{words}]({os.path.relpath(places[path], folder)}{mark}{anchor})"
        missing += 1
        return words if words.strip("`") == path else f"{words} ({path})"

    for line in text.splitlines(keepends=True):
        is_block ^= line.startswith("```")
        lines.append(line if is_block else LINK.sub(link, line))
    if missing:
        lines.append(f"\nFiles that aren't packed are named by their paths in the repository, at revision {revision}.\n")
    return "".join(lines)


def dead_links(folder):
    """The links of the pages in the folder that lead to no file: of each the page and the target."""
    for at, _, names in os.walk(folder):
        for name in sorted(names):
            if name.endswith(".md"):
                with open(os.path.join(at, name), encoding="utf-8") as file:
                    found = re.sub(r"^```.*?^```", "", file.read(), flags=re.M | re.S)
                targets = [it[2].partition("#")[0] for it in LINK.finditer(found) if not re.match(r"[a-z]+:", it[2])]
                yield from (f"{at}/{name}: {it}" for it in targets if it and not os.path.exists(os.path.join(at, it)))


if __name__ == "__main__":
    dead = list(dead_links(sys.argv[1]))
    print("\n".join(dead), end="\n" * bool(dead))
    sys.exit(bool(dead))
