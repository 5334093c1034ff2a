"""What docs/print_pages prints, and docs/check compares: parts of pages, made from the sources."""
import glob
import os
import re
import sys

from check_tree import read, words_of_definitions

sys.path.insert(0, os.path.join(os.path.dirname(os.path.abspath(__file__)), "../tools"))
from edit_files import Edit  # noqa: E402

PRINTED_PAGES = ["docs/DEFINITIONS.md", "docs/PROOFS.md"]
PART = re.compile(r"^<!-- printed: (.*?) -->\n(.*?)^<!-- end -->$", re.M | re.S)
AT_LINE = re.compile(r"(`([A-Za-z_][\w'-]*)` \((\w+), `(\w+\.\w+)`, line )(\d+)\)")
# (in a module that has parameters definitions are indented, as the fields of a record are, which have no such word)
DEFINED = re.compile(
    r"(?:(?:[a-z]+ )*?pub (?:record |data )?| +(?:(?:abbrev|unfoldable) pub |pub (?:record|data) ))"
    r"(?!use |mod )([^\s:({]+)(?=[\s:({]|$)"
)
DECLARED = re.compile(r"use Rattle\.(\w+)\.specs\.declared\.([\w.]+)\.\{([^}]*)\}")
FOR_THE_PROOFS = "-- ---- for the proofs"


class Definition:
    """A definition of a file of specs/, with the comment above it."""

    def __init__(self, name, file, words, is_for_proofs):
        self.name, self.file, self.words, self.is_for_proofs = name, file, words, is_for_proofs


def definitions_of(crate):
    """The definitions of a crate, in the order of its files and their lines."""
    found = []
    for path in sorted(glob.glob(f"crates/{crate}/specs/*.antt")):
        words, is_for_proofs = [], False
        for line in read(path).split("\n"):
            if line.startswith(FOR_THE_PROOFS):
                is_for_proofs, words = True, []
            elif line.lstrip().startswith("--"):
                words.append(line.lstrip()[2:].strip())
            else:
                head = DEFINED.match(line)
                if head:
                    file = os.path.basename(path)[:-5]
                    found.append(Definition(head[1].strip("◌"), file, " ".join(words), is_for_proofs))
                words = []
    return found


def text_of(path):
    """The text of a file; none where there is no file."""
    return read(path) if os.path.isfile(path) else ""


def cell(text):
    """A comment as a table's cell has it: outside backticks nothing of it is Markdown."""
    parts = text.split("`")
    parts[::2] = [re.sub(r"([*<|])", r"\\\1", it) for it in parts[::2]]
    parts[1::2] = [it.replace("|", r"\|") for it in parts[1::2]]
    return "`".join(parts)


def listed(path):
    """The lines of a list, each with its heading and its number: a line `= WORDS` is a heading."""
    heading = ""
    for number, line in enumerate(read(path).split("\n"), 1):
        if line.startswith("= "):
            heading = line[2:]
        elif line and not line.startswith("#"):
            yield heading, number, line


class Printer:
    def __init__(self, tree):
        self.tree, self.faults = tree, []
        self.reached = tree.definitions_reached("crates/batch_runner/src/serving.rt", "serve_words")
        self.files = sorted({path for path, _ in self.reached})
        self.rows = {}
        for crate, number, line in listed("docs/definitions.txt"):
            names, standard, rows, *words = (it.strip() for it in line.split(" | "))
            self.rows.setdefault(crate, []).append((number, names.split(), standard, rows, words))

    def fault(self, path, number, why):
        self.faults.append(f"{path}:{number}: {why}")

    def printed(self, page):
        """A page as it has to be."""
        text = PART.sub(lambda it: f"<!-- printed: {it[1]} -->\n{self.part(it[1])}<!-- end -->", read(page))
        return AT_LINE.sub(self.with_line, text)

    def with_line(self, told):
        found = self.tree.lines_of(told[2], told[3], told[4])
        number = found[0] if len(found) == 1 else told[5]
        return f"{told[1]}{number})"

    def part(self, what):
        """What is printed between a line that names it and the line of its end."""
        kind, *words = what.split()
        return getattr(self, f"print_{kind}")(*words)

    # ---- DEFINITIONS.md

    def print_definitions(self, crate):
        """A crate's definitions in groups, each with the words above it, its standard and what tests it."""
        known = definitions_of(crate)
        text = "| Definition | File | In words | Standard, section | Rows and vectors |\n|---|---|---|---|---|\n"
        for number, names, standard, rows, words in self.rows.get(crate, ()):
            group = [next((it for it in known if it.name == name), None) for name in names]
            for name, one in zip(names, group):
                if one is None:
                    self.fault("docs/definitions.txt", number, f"no definition `{name}` in {crate}")
                else:
                    known.remove(one)
            group = [it for it in group if it]
            links = ", ".join(dict.fromkeys(f"[{it.file}](../crates/{crate}/specs/{it.file}.antt)" for it in group))
            told = words + self.words_of(group)
            if group and all(it.is_for_proofs for it in group):
                told.insert(0, "for the proofs")
            shown = ", ".join(f"`{name}`" for name in names)
            text += f"| {shown} | {links} | {'; '.join(told)} | {standard} | {rows} |\n"
        return text

    @staticmethod
    def words_of(group):
        """What stands above each definition of a group. One that stands alone needs no name."""
        shown = [it for it in group if it.words]
        return [cell(it.words if len(group) == 1 else f"`{it.name}` – {it.words}").rstrip(".") for it in shown]

    def print_files(self):
        """The files of specs/ that the contract of the top call reaches, with their lines."""
        text, total = "| Crate | Files of `specs/` (lines) | Lines |\n|---|---|---|\n", 0
        for crate in dict.fromkeys(path.split("/")[1] for path in self.files):
            sizes = [(path.partition("/specs/")[2], self.tree.line_count(path))
                     for path in self.files if path.split("/")[1] == crate]
            total += sum(size for _, size in sizes)
            shown = ", ".join(f"`{name}` ({size})" for name, size in sizes)
            text += f"| {crate} | {shown} | {sum(size for _, size in sizes):,} |\n"
        return text + f"| all | {len(self.files)} files | {total:,} |\n"

    def print_types(self):
        """The types of src/ that the definitions reached speak of."""
        types = {}
        for path in self.files:
            words = words_of_definitions(path)
            used = set().union(*(words.get(name, ()) for at, name in self.reached if at == path))
            for crate, inside, names in DECLARED.findall(read(path)):
                parts = inside.split(".")
                at = next((k for k, it in enumerate(parts) if it[0].isupper()), 0)
                file = f"{'/'.join(parts[:at])}.rt"
                own = {it.split(" as ")[-1].strip() for it in names.split(",")}
                if own & used and os.path.isfile(f"crates/{crate}/src/{file}"):
                    types.setdefault(crate, {}).setdefault(file, set()).add(parts[at])
        text = "| Crate | Types |\n|---|---|\n"
        for crate in sorted(types):
            shown = [f"{', '.join(f'`{it}`' for it in sorted(names))} (`{file}`)"
                     for file, names in sorted(types[crate].items())]
            text += f"| {crate} | {'; '.join(shown)} |\n"
        return text

    # ---- PROOFS.md

    def print_mutants(self):
        """The must-fail edits by promise, each with what it changes and the clause that refuses it."""
        text = "| Promise | Mutant (crate) | Changes | Refused by |\n|---|---|---|---|\n"
        left, last = set(self.tree.edits), None
        for promise, number, line in listed("docs/mutants.txt"):
            head, _, more = line.partition(" | ")
            crate, *names = head.split()
            for name in names:
                if (crate, name) not in left:
                    self.fault("docs/mutants.txt", number, f"no must-fail edit `{name}` in {crate}, or a second time")
            left -= {(crate, name) for name in names}
            edits = [Edit(f"crates/{crate}/must-fail/{it}.edit") for it in names if (crate, it) in self.tree.edits]
            shown = ", ".join(f"[`{it.name}`](../crates/{crate}/must-fail/{it.name}.edit)" for it in edits)
            changed = ", ".join(dict.fromkeys(it for edit in edits for it in self.changed_by(crate, edit)))
            refused = "; ".join(dict.fromkeys(self.refused_by(crate, it) for it in edits)) + more
            text += f"| {promise if promise != last else ''} | {shown} ({crate}) | {changed} | {refused} |\n"
            last = promise
        for crate, name in sorted(left):
            self.fault("docs/mutants.txt", 1, f"no line has the edit `{name}` of {crate}")
        return text.replace("|  |", "| |")

    def changed_by(self, crate, edit):
        """The functions that an edit changes, each with its file."""
        for file, old, _ in edit.parts:
            if old not in text_of(f"crates/{crate}/{file}"):
                self.fault(f"crates/{crate}/must-fail/{edit.name}.edit", 1, f"{file} has no such text")
        found = [(function, file.removeprefix("src/")) for function, file in edit.functions_in(f"crates/{crate}")]
        return [f"`{function}` (`{file}`)" if function else f"`{file}`" for function, file in found]

    def refused_by(self, crate, edit):
        """The function and the clause that an edit names, where the source has a function of that name; a clause
        without a name is the function's only one."""
        *owners, name = edit.function.split("::")
        method = f"{owners[-1]}::{name}" if owners and owners[-1][0].isupper() else name
        # (what a trait asks for has a name of its own there, which no source has)
        shown = next((it for it in (method, name) if self.tree.has_name(it, crate)), None)
        clause = "" if edit.clause == "ensures" else f": `{edit.clause}`"
        return f"`{shown}`{clause}{self.goal_of(edit)}" if shown else ""

    @staticmethod
    def goal_of(edit):
        """Where the prover refuses an edit, if that isn't the clause itself."""
        called, is_call, _ = edit.goal.partition("-requires")
        if is_call:
            return f", at what `{called}` requires"
        if not edit.goal or edit.goal.startswith("returns"):
            return ""
        # (the goal of a loop has its name: `loop-` and the variable, or what it goes over)
        is_loop = edit.goal.startswith("loop-") or "-" not in edit.goal
        return ", at its loop" if is_loop else f", at `{edit.goal}`"

    def print_text(self, path, first, last=None):
        """The text of a file from one definition to another, with what stands above the first; of code, a clause."""
        lines = text_of(f"crates/{path}").split("\n")
        is_code = path.endswith(".rt")
        ends = [self.line_of(lines, name, path, is_code) for name in (first, last or first)]
        begin, end = ends[0], ends[1] + 1
        while not is_code and begin and lines[begin - 1].startswith("--"):
            begin -= 1
        while end < len(lines) and lines[end].strip() and not (is_code and re.match(r"\s+(?://|ensures|requires)|\{", lines[end])):
            end += 1
        return "```antt\n" + "\n".join(lines[begin:end]) + "\n```\n"

    def line_of(self, lines, name, path, is_code):
        form = rf"(?:[a-z]+ )*pub (?:record |data )?{re.escape(name)}(?=[\s:({{]|$)"
        form = rf"\s+(?:ensures|requires) {name} " if is_code else form
        found = [k for k, line in enumerate(lines) if re.match(form, line)]
        if len(found) != 1:
            self.fault(f"crates/{path}", 1, f"`{name}` stands there {len(found)} times")
        return found[0] if found else 0
