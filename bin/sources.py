"""The functions of crates/*/src with their clauses, the definitions of crates/*/specs, and which definitions a text uses."""
import glob
import os
import re

from rooms import TOP, listed

OWNER = re.compile(r"^(?:pub )?(impl|trait|struct|enum)\b(?:<[^{]*?>(?= ))?\s*([^{;]*)", re.MULTILINE)
FUNCTION = re.compile(r'^[ ]*(pub )?(?:pub\([a-z]+\) )?(?:const )?(?:extern "C" )?fn (\w+)', re.MULTILINE)
EXPORT = re.compile(r"^pub use (?:\w+::)+(?:\{([^}]*)\}|(\w+));|^pub mod (\w+);", re.MULTILINE)
LINK = re.compile(r"\[(`[^`]+`)\](?:\([^)]*\))?")
CLAUSE = re.compile(r"\b(ensures|requires)\s+(?:(\w+)\s+)?\{|[{;]")
GHOST = re.compile(r"ghost (\w+) = \{")
USE = re.compile(r"^\s*(?:ghost )?use Rattle\.(\w+)\.specs\.(\w+)(?:\.\{(.*)\}| as (\w+));?$", re.MULTILINE)
CONSTANTS = re.compile(r"^use Rattle\.\w+\.specs\.declared\.(?:\w+\.)*TheConstants\.\{(.*)\}$", re.MULTILINE)
# A definition begins at the margin, or is one of those below a line "unfoldable mutual" or "module".
GROUP = re.compile(r"unfoldable mutual$|module ")
DEFINITION = re.compile(r"(?:(?:abbrev|unfoldable) (?:pub )?|pub (?:record |data )?)(?!mod )(\w+)")
MEMBER = re.compile(r"  (?:(?:abbrev|unfoldable) )?pub (\w+) :")
CONSTRUCTOR = re.compile(r"^  (\w+) :", re.MULTILINE)
# A field that a record declares or is given has a name of its own, and so has what a clause binds.
FIELD = re.compile(r"^\s+pub \w+ :|(?<=[{;]) *\w+ =(?= )", re.MULTILINE)
BOUND = re.compile(r"λ ([\w ]+)\.|λ \((\w+) :|\(([\w ]+) : ")
WORDS = re.compile(r"\w+(?:\.\w+)*")


def read(path):
    with open(path, encoding="utf-8") as file:
        return file.read()


def paths_in(crate, folder, pattern):
    """The files of a folder of a crate, sorted."""
    return sorted(glob.glob(os.path.join(glob.escape(os.path.join(TOP, "crates", crate, folder)), *pattern.split("/")), recursive=True))


def braced(text, start):
    """Where the brace that stands at this offset is closed."""
    depth = 0
    for offset in range(start, len(text)):
        depth += {"{": 1, "}": -1}.get(text[offset], 0)
        if depth == 0:
            return offset
    return len(text)


def inside(text, start):
    """What stands between the brace at this offset and the one that closes it, with single blanks."""
    return " ".join(text[start + 1:braced(text, start)].split())


def clauses_of(text, at):
    """The clauses of the function whose head begins here: up to its body."""
    clauses = []
    while True:
        found = CLAUSE.search(text, at)
        if found is None or found.group(1) is None:
            return clauses
        at = braced(text, found.end() - 1)
        clauses.append((found.group(1), found.group(2), inside(text, found.end() - 1)))


def holds(text, item):
    """Whether a text has an item in it that is no part of a longer word."""
    return re.search(r"(?<![\w.])" + re.escape(" ".join(item.split())) + r"(?![\w.])", text) is not None


class Names:
    """What the `use` lines of a file name: definitions, and files of definitions by another name."""

    def __init__(self, text):
        self.definitions, self.files = {}, {}
        self.constants = {name for names in CONSTANTS.findall(text) for name in names.split(", ")}  # of the code
        for crate, file, names, other in USE.findall(text):
            if other:
                self.files[other] = (crate, file)
            for name in filter(None, names.split(", ")):
                first, _, last = name.partition(" as ")
                self.definitions[last or first] = (crate, file, first)

    def used(self, text, bound=()):
        """The definitions that a text uses, each as its crate, its file and its name."""
        for word in WORDS.findall(text):
            first, *rest = word.split(".")
            if first in self.files and rest:
                yield (*self.files[first], rest[0])
            elif first in self.definitions and first not in bound:
                yield self.definitions[first]


def sentence_above(text, at):
    """The first sentence of the documentation above an offset."""
    lines = []
    for line in reversed(text[:at].rstrip("\n").split("\n")):
        if line.strip().startswith("///"):
            lines.insert(0, line.strip()[3:].strip())
        elif not line.strip().startswith("#["):
            break
    return re.split(r"(?<=\.) (?=[A-Z`\[])", LINK.sub(r"\1", " ".join(lines)).split("  ")[0])[0]


def exported(text):
    """The names that a library gives to other crates, and its modules that they can look into."""
    for found in EXPORT.findall(text):
        for name in ",".join(found).split(","):
            yield name.split(" as ")[-1].strip()


class Block:
    """An impl or a trait, and the ghosts that it gives."""

    def __init__(self, text, found, owner):
        self.start, self.end, self.owner = found.end(), braced(text, found.end()), owner
        self.is_trait, self.is_of_trait = found.group(1) == "trait", " for " in found.group(2)
        self.given = {one.group(1): inside(text, one.end() - 1) for one in GHOST.finditer(text, self.start, self.end)}


class Function:
    def __init__(self, path, clauses, names):
        self.path = path  # crate, modules, perhaps a type, and the name
        self.says = None  # the first sentence about a public function
        self.ensures = [(name, text) for kind, name, text in clauses if kind != "requires"]
        self.requires = [(name, text) for kind, name, text in clauses if kind == "requires"]
        self.names = names

    def meets(self, item):
        """Whether a clause has this name, or this text in it."""
        if re.fullmatch(r"[a-z_]+", item):
            return any(name == item for name, _ in self.ensures)
        return any(holds(text, item) for _, text in self.ensures)

    def used(self):
        """The definitions that its clauses use."""
        for _, text in self.ensures + self.requires:
            yield from used_in_clause(self.names, text)


def used_in_clause(names, text):
    bound = {name for groups in BOUND.findall(text) for name in " ".join(groups).split()}
    return names.used(text, bound)


class Definition:
    def __init__(self, place, name, comment, body):
        self.place, self.name = place, name  # the place is its crate and its file
        self.comment = " ".join(line.lstrip("- ").strip() for line in comment)
        self.body = FIELD.sub("", "\n".join(line for line in body if not line.lstrip().startswith("--")))


def definitions_in(place, text):
    """The definitions of a file of specs, in order. One of a group that has no comment has that of the one before it."""
    found, comment, body, is_group = [], [], [], False
    for line in text.split("\n"):
        if line.lstrip().startswith("--"):
            comment.append(line)
            continue
        if line and not line.startswith(" "):
            is_group = GROUP.match(line) is not None
        start = (MEMBER if is_group else DEFINITION).match(line)
        if start:
            body = []
            found.append((start.group(1), comment or (found[-1][1] if is_group else []), body))
        body.append(line)
        if start or not line:
            comment = []
    return [Definition(place, *one) for one in found]


class Sources:
    """The functions, the types with their invariants, and the definitions of all crates."""

    def __init__(self):
        self.functions, self.types, self.invariants = [], set(), {}
        self.definitions, self.names = {}, {}  # by crate, file and name, in the order of crates.txt; by crate and file
        self.exports = {}  # by crate: the names of what other crates can use
        self.crates = list(listed())
        for crate in self.crates:
            self.exports[crate] = {name for path in paths_in(crate, "src", "lib.rt") for name in exported(read(path))}
            for path in paths_in(crate, "src", "**/*.rt"):
                if os.path.basename(path) != "tests.rt":
                    self.take_source(path)
            for path in paths_in(crate, "specs", "*.antt"):
                self.take_definitions((crate, os.path.basename(path)[:-5]), read(path))

    def take_definitions(self, place, text):
        self.names[place] = Names(text)
        for one in definitions_in(place, text):
            self.definitions.setdefault((*place, one.name), one)
            for constructor in CONSTRUCTOR.findall(one.body) if one.body.startswith("pub data") else ():
                self.definitions.setdefault((*place, constructor), one)
            self.names[place].definitions.setdefault(one.name, (*place, one.name))

    def take_source(self, path):
        parts = os.path.relpath(path, os.path.join(TOP, "crates"))[:-3].split(os.sep)
        module = [part for part in parts if part not in ("src", "lib")]
        source = read(path)
        text = re.sub(r"//[^\n]*", lambda found: " " * len(found.group()), source)
        blocks, names = [], Names(text)
        for found in OWNER.finditer(text):
            owner = re.match(r"\w+", found.group(2).split(" for ")[-1].strip())
            if owner is None:
                continue
            self.types.add((module[0], owner.group(0)))
            if found.group(1) in ("impl", "trait") and text[found.end():found.end() + 1] == "{":
                blocks.append(Block(text, found, owner.group(0)))
                if "invariant" in blocks[-1].given:
                    self.invariants[(module[0], owner.group(0))] = (blocks[-1].given["invariant"], names)
        for found in FUNCTION.finditer(text):
            around = [block for block in blocks if block.start < found.start() < block.end]
            path = module + [block.owner for block in around] + [found.group(2)]
            # What an impl of a trait says of its functions stands in the impl.
            given = [("ghost", name, one) for block in around if block.is_of_trait for name, one in block.given.items()]
            self.functions.append(Function(path, clauses_of(text, found.end()) + given, names))
            if self.is_public(path, len(module), found, around):
                self.functions[-1].says = sentence_above(source, found.start())

    def is_public(self, path, modules, found, around):
        """Whether other crates can call a function of the crate."""
        if not found.group(1) and not any(block.is_trait for block in around):
            return False
        return any(name in self.exports[path[0]] for name in (path[1], path[modules]))

    def public(self):
        """The public functions of each crate that has some."""
        for crate in self.crates:
            functions = [one for one in self.functions if one.path[0] == crate and one.says is not None]
            if functions:
                yield crate, functions

    def name_of(self, function):
        """A public function as its users write it: without the modules that they cannot see."""
        crate, *above, name = function.path
        return "::".join([word for word in above if word[0].isupper() or word in self.exports[crate]] + [name])

    def named(self, reference, crate=None):
        """The functions that a reference may mean: its words stand in this order in the function's path, the last of them last."""
        words = reference.split("::")
        found = []
        for function in self.functions:
            if crate in (None, function.path[0]) and function.path[-1] == words[-1]:
                rest = iter(function.path[:-1])
                if all(word in rest for word in words[:-1]):
                    found.append(function)
        return found

    def reached(self, keys):
        """These definitions, and those that they use in turn; in no order."""
        found, left = set(), list(keys)
        while left:
            key = left.pop()
            if key in self.definitions and key not in found:
                found.add(key)
                one = self.definitions[key]
                left += self.names[one.place].used(one.body)
        return found
