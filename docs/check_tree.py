"""What the tree defines, for docs/check: read from the files of crates/ by the forms of their lines."""
import fnmatch
import glob
import os
import re
import shutil

VISIBLE = r"\s*(?:pub(?:\([^)]*\))? )?"
IMPL = re.compile(r"\s*(?:unsafe )?impl\b")
TYPE_HEAD = re.compile(rf"{VISIBLE}(?:struct|enum|trait) (\w+)")
MEMBER = re.compile(r"\s+(?:pub(?:\([^)]*\))? )?(?:ghost |type |const )?(\w+)\s*(?:[:,({=]|$)")
FUNCTION = re.compile(rf'{VISIBLE}(?:const )?(?:extern "C" )?fn (\w+)')
CLAUSE = re.compile(r"\s+(?:ensures|requires) (?:(\w+) )?\{")
OTHER = re.compile(r"\b(?:const|static|type|mod|macro_rules!) (\w+)")
DEFINITION = re.compile(r"\s*(?:[a-z]+ )*?pub (?:(?:record|data|mod) )?([^\s:({]+)|([\w'-]+) :|ruleset ([\w'-]+)")
WORDS = re.compile(r"[\w']+")
STRING = re.compile(r'"([^"\n]*)"')
IMPORT = re.compile(r"use Rattle\.(\w+)\.specs\.([\w.]+)\.\{([^}]*)\}")
HEAD = re.compile(r"(?:(?:abbrev|unfoldable|pub|record|data) )*(?!use )([\w'-]+)(?=[\s:({])")
TERM = re.compile(r"[\w'-]+")


def read(path):
    with open(path, encoding="utf-8") as file:
        return file.read()


def without_generics(text):
    """The text without its <..>, however they are nested."""
    before = None
    while before != text:
        before, text = text, re.sub(r"<[^<>]*>", "", text.replace("->", ""))
    return text


def imports_of(text):
    """What a text imports from files of specs/ here, by the names that it has for it: a path, and the name there."""
    found = {}
    for crate, file, names in IMPORT.findall(text):
        path = f"crates/{crate}/specs/{file.replace('.', '/')}.antt"
        for name, _, own in (it.strip().partition(" as ") for it in names.split(",") if os.path.isfile(path)):
            found[own or name] = path, name
    return found


def words_of_definitions(path):
    """The words of each definition of a file, from its first line to the next one's."""
    found, name = {}, None
    for line in re.sub(r"--.*", "", read(path)).split("\n"):
        head = HEAD.match(line)
        name = head[1] if head else name
        found.setdefault(name, set()).update(TERM.findall(line))
    return found


def with_whole_heads(text):
    """The lines of a code, where the head of an impl is one line."""
    head = ""
    for line in text.split("\n"):
        if head or IMPL.match(line):
            head += line
            if "{" not in line:
                continue
            line, head = head, ""
        yield line


class Function:
    """A function, with its clauses; its owners are its module, its type and its trait."""

    def __init__(self, name, crate, owners):
        self.name, self.crate, self.owners, self.clauses = name, crate, owners, set()


class Tree:
    def __init__(self):
        heads = [line.partition(":") for line in read("crates.txt").split("\n") if re.match(r"\w", line)]
        self.crates = [head.split()[0] for head, _, _ in heads]
        self.uses = {head.split()[0]: set(uses.split()) for head, _, uses in heads}
        self.names = {crate: set() for crate in self.crates}  # what each crate defines
        self.in_file = {}  # and each file
        self.in_comments = set()  # words with _
        self.functions, self.members, self.fields, self.edits = [], set(), {}, set()
        # what the code spells or takes from elsewhere: the kit's names, the words of the formats
        self.used = {name for _, _, uses in heads for name in uses.split()}
        for crate in self.crates:
            self.read_crate(crate)
        self.of_kit = set()  # paths that no file here has, where the kit can't be looked at
        self.anywhere = set(self.crates).union(self.used, *self.names.values())
        self.paths = []
        for at, folders, files in os.walk("."):
            folders[:] = [it for it in folders if it not in ("out", ".git")]
            self.paths += [f"{at[1:]}/{it}" for it in [*folders, *files]]

    def read_crate(self, crate):
        for at, folders, files in os.walk(f"crates/{crate}"):
            folders[:] = [it for it in folders if it not in ("out", "must-fail")]
            for name in files:
                stem, kind = os.path.splitext(name)
                if kind in (".rt", ".antt"):
                    self.add(crate, f"{at}/{name}", stem)
                    comments = re.findall(r"(?://|--).*", read(f"{at}/{name}"))
                    self.in_comments |= set(re.findall(r"[a-z0-9]+_\w+", " ".join(comments)))
                    reads = self.read_code if kind == ".rt" else self.read_definitions
                    reads(crate, f"{at}/{name}")
        for edit in glob.glob(f"crates/{crate}/must-fail/*.edit"):
            name = os.path.splitext(os.path.basename(edit))[0]
            self.edits.add((crate, name))
            self.names[crate].add(name)

    def add(self, crate, path, name):
        self.names[crate].add(name)
        self.in_file.setdefault(path, set()).add(name)

    def read_code(self, crate, path):
        text = re.sub(r"//.*", "", read(path))
        module = os.path.splitext(os.path.basename(path))[0]
        for use in re.findall(r"\buse ([^;]*)", text) + STRING.findall(text):
            self.used |= set(WORDS.findall(use))
        self.used |= set(re.findall(r"(?:\.|::)(\w+)(?:::<[^()]*>)?\(", text))
        owners, is_type, function = {module}, False, None
        for line in with_whole_heads(text):
            head, begun, clause, member = (it.match(line) for it in (TYPE_HEAD, FUNCTION, CLAUSE, MEMBER))
            found = OTHER.findall(line)
            if line.startswith("}"):
                owners, is_type = {module}, False
            elif IMPL.match(line):
                found += WORDS.findall(line)
                of = without_generics(line.partition("impl")[2]).partition(" where")[0]
                owners, is_type = {module, *WORDS.findall(of)} - {"for"}, False
            elif head:
                found.append(head[1])
                if line.endswith("{") and not line.startswith(" "):
                    owners, is_type = {module, head[1]}, True
            elif begun:
                function = Function(begun[1], crate, owners)
                self.functions.append(function)
                found.append(begun[1])
            elif clause and function:
                function.clauses.add(clause[1])
                found += [clause[1]] if clause[1] else []
            elif member and (is_type or "ghost" in line):
                found.append(member[1])
                self.members |= {(owner, member[1]) for owner in owners}
            for name in found:
                self.add(crate, path, name)

    def read_definitions(self, crate, path):
        record = None
        for line in re.sub(r"--.*", "", read(path)).split("\n"):
            for string in STRING.findall(line) + [line] * line.startswith("use "):
                self.used |= set(WORDS.findall(string))
            found = DEFINITION.match(line)
            if found and not line.startswith("use "):
                name = found[1] or found[2] or found[3]
                self.add(crate, path, name)
                head = re.match(r"(?:pub )?record (\S+)", line)
                record = head[1] if head else record if line.startswith(" ") else None
                if record and not head:
                    self.fields.setdefault(record, set()).add(name)

    @staticmethod
    def public_definitions(path):
        """The names that a file of specs/ defines for others, before its heading on the proofs."""
        text = read(path).partition("-- ---- for the proofs")[0]
        return re.findall(r"^(?:[a-z]+ )*?pub (?:record |data )?(?!use |mod )([\w'-]+)(?=[\s:({])", text, re.M)

    def crate_in(self, text):
        """The first word of a text, where it is a crate."""
        word = re.match(r"\w*", text)[0]
        return word if word in self.crates else None

    def has_name(self, path, crate=None):
        """Whether the path is defined in the crate; with no crate, anywhere here or in the kit."""
        *owners, name = path.split("::")
        if not owners:
            return name in (self.names[crate] if crate else self.anywhere)
        of = owners[-1]
        found = [it for it in self.functions if it.name == name and (of in it.owners or of == it.crate)]
        return any(crate in (None, it.crate) for it in found) or (of, name) in self.members

    def is_in_file(self, path, crate, file):
        """Whether a file of that name, of the crate or of any, defines the last name of the path."""
        name = path.split("::")[-1]
        inside = f"crates/{crate}/" if crate else ""
        found = [it for at, it in self.in_file.items() if f"/{at}".endswith(f"/{file}") and at.startswith(inside)]
        return any(name in it for it in found)

    def path_of(self, crate, file):
        """The path of a crate's file, or none."""
        ending = re.compile(rf"crates/{crate}/(?:src|specs)/{re.escape(file)}")
        return next((at for at in self.in_file if ending.fullmatch(at)), None)

    def lines_of(self, name, crate, file):
        """The numbers of the lines of a crate's file that begin a definition, a function, a type or a
        clause of this name."""
        path = self.path_of(crate, file)
        forms = (DEFINITION,) if file.endswith(".antt") else (FUNCTION, TYPE_HEAD, CLAUSE)
        lines = read(path).split("\n") if path else []
        heads = [[it.groups() for form in forms if (it := form.match(line))] for line in lines]
        return [number for number, found in enumerate(heads, 1) if any(name in it for it in found)]

    def has_clause(self, paths, clause, crate):
        """Whether a function of these has the clause, or has it from its trait. Of a type, whether it
        has that method, or one with the clause. The crate is that of a name without its type."""
        for path in paths:
            *owners, name = path.split("::")
            if name[0].isupper():
                found = [it for it in self.functions if name in it.owners]
                if any(clause == it.name or clause in it.clauses for it in found):
                    return True
                continue
            same = [it for it in self.functions if it.name == name]
            found = [it for it in same if owners[-1] in it.owners] if owners else [it for it in same if crate in (None, it.crate)]
            of_types = {it for one in found for it in one.owners if it[0].isupper()}
            if any(clause in it.clauses for it in same if it in found or it.owners & of_types):
                return True
        return False

    def has_path(self, path):
        """Whether some path ends in this one, here or in the kit's folder. A batch needs no ending."""
        ending = f"/{path.rstrip('/')}"
        if "*" in ending:
            return any(fnmatch.fnmatch(it, f"*{ending}") for it in self.paths)
        if any(it.endswith((ending, f"{ending}.batch")) for it in self.paths):
            return True
        if not shutil.which("rt"):
            # (it may be the kit's)
            self.of_kit.add(path)
            return True
        kit = os.path.realpath(shutil.which("rt")).rsplit("/", 2)[0]
        return any(glob.glob(f"{kit}{inside}{ending}") for inside in ("", "/rattle", "/rattle/*/specs"))

    def stretch_of(self, text, crate, file):
        """The numbers of the lines where a text stands in a crate's file; none where it doesn't."""
        path = self.path_of(crate, file)
        before, found, _ = f"\n{read(path)}".partition(f"\n{text}") if path else ("", "", "")
        first = before.count("\n") + 1
        return range(first, first + text.count("\n")) if found else range(0)

    @staticmethod
    def definitions_reached(path, function):
        """The definitions that the contract of a function reaches, through those that it names: files, and names there."""
        text = read(path)
        contract = re.split(r"^\{", text.partition(f"pub fn {function}")[2], flags=re.M)[0]
        known = {None: ({None: set(TERM.findall(contract))}, imports_of(text))}
        reached, left = set(), [(None, None)]
        while left:
            path, name = left.pop()
            if path not in known:
                known[path] = words_of_definitions(path), imports_of(read(path))
            words, imports = known[path]
            named = {imports.get(it, (path, it)) for it in words.get(name, ()) if it in imports or it in words}
            left += named - reached
            reached |= named
        return {(path, name) for path, name in reached if path}

    @staticmethod
    def line_count(path):
        return read(path).count("\n") if os.path.isfile(path) else 0
