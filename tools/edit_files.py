"""The files of must-fail edits: what each changes, and which clause of which function has to refuse it.

Beside the lines that `rt must-fail` reads, `file: PATH` and pairs of `old: TEXT` and `new: TEXT`, such a file has two
comments:

    # function: PATH        the function, as a check prints it, without its crate
    # clause: NAME          the clause of its contract; `ensures` where that has no name
    # clause: NAME, by GOAL where the prover refuses a goal that this clause needs: the invariant of a loop, as `loop-i`,
                            what a call requires, as `copy-requires`, or `returns`, which it doesn't split by clauses
"""
import collections
import os
import re

ENSURES = re.compile(r"^\s+ensures ", re.M)
FUNCTION = re.compile(r'^( *)(?:pub(?:\([^)]*\))? )?(?:const )?(?:extern "C" )?fn (\w+)', re.M)

Place = collections.namedtuple("Place", "file first last clauses")


def read(path):
    with open(path, encoding="utf-8") as file:
        return file.read()


def function_open_in(text):
    """The function whose body a text ends in; none where it ends between functions."""
    heads = list(FUNCTION.finditer(text))
    if heads and not re.search(rf"^{heads[-1][1]}}}", text[heads[-1].end():], re.M):
        return heads[-1][2]
    return None


class Edit:
    """A must-fail edit of a crate: its parts are a file, the text there and the text in its place."""

    def __init__(self, path):
        self.name, self.text = os.path.basename(path).removesuffix(".edit"), read(path)
        self.parts, self.function, self.clause, self.goal = [], "", "", ""
        file = old = ""
        for line in self.text.split("\n"):
            word, _, rest = line.partition(": ")
            if word == "# function":
                self.function = rest.strip()
            elif word == "# clause":
                self.clause, _, self.goal = (it.strip() for it in rest.partition(", by "))
            elif word == "file":
                file = rest.strip()
            elif word == "old":
                old = rest
            elif word.rstrip(":") == "new":
                self.parts.append((file, old, rest))

    def applied_to(self, folder):
        """The texts of the files that it changes, as it makes them; a ValueError says why it can't be applied."""
        texts = {}
        if not self.parts:
            raise ValueError("it has no `old:` and `new:`")
        for file, old, new in self.parts:
            if file not in texts:
                if not os.path.isfile(f"{folder}/{file}"):
                    raise ValueError(f"there is no file {file}")
                texts[file] = read(f"{folder}/{file}")
            if not old or texts[file].count(old) != 1:
                raise ValueError(f"its `old:` text is in {file} {texts[file].count(old)} times, and not once")
            if old == new:
                raise ValueError("it changes nothing")
            texts[file] = texts[file].replace(old, new)
        return texts

    def functions_in(self, folder):
        """The functions that it changes, each with its file; none in place of a function where the text is in none."""
        found = []
        for file, old, _ in self.parts:
            before = read(f"{folder}/{file}").partition(old)[0] if os.path.isfile(f"{folder}/{file}") else ""
            found.append((function_open_in(before), file))
        return found


    def place(self, folder):
        """The function that it changes first: its file, its first and its last line, and how many clauses of its own
        it has (none where it has them of a trait). Nothing where the first change is in no function."""
        file, old, _ = self.parts[0]
        text = read(f"{folder}/{file}")
        before = text.partition(old)[0]
        if not function_open_in(before):
            return None
        head = list(FUNCTION.finditer(before))[-1]
        end = re.compile(rf"^{head[1]}}}", re.M).search(text, head.end())
        contract = re.split(rf"^{head[1]}{{", text[head.end():end.start()], maxsplit=1, flags=re.M)[0]
        first, last = (text.count("\n", 0, at) + 1 for at in (head.start(), end.start()))
        return Place(file, first, last, len(ENSURES.findall(contract)))


def edits_of(folder):
    """The edits of a crate, in the order of their names."""
    folder = f"{folder}/must-fail"
    names = sorted(os.listdir(folder)) if os.path.isdir(folder) else []
    return [Edit(f"{folder}/{it}") for it in names if it.endswith(".edit")]
