"""The edits that make a proved function wrong, which the prover has to refuse: crates/CRATE/must-fail has those that the gate tries, crates/CRATE/edits others.

Both folders have the form that rt describes.

An edit is tried on a copy of the crate, over the built libraries below it. First the prover looks at the function alone in which the first changed line
stands, or at its module if that line is in none, and at what it calls. If that is proved all the same, it looks at the whole crate. What it proves is kept for
the other edits of the crate, which are tried one after the other.
"""
import functools
import glob
import os
import re
import shutil
import tempfile
import time

from programs import NAME, kit
from rooms import PARTS, Room, below, listed, memory
from running import Command, Progress

FOLDERS = ("must-fail", "edits")
BYTES_FOR_A_CHECK = 2 << 30
CALLED_WRONGLY = 2  # what the prover answers if there is no function with that name
FUNCTION = re.compile(r"( *)(?:pub(?:\([^)]*\))? )?(?:const )?(?:unsafe )?(?:extern \"C\" )?fn (\w+)")
METHODS = re.compile(r"impl(?:<.*?>)? (?:(\w+)(?:<.*>)? for )?(\w+)")
WHERE = re.compile(r"(?:note: )?\S+:\d+:\d+: ")
NAMES_WHAT_IS_GONE = re.compile(r"(?:\./)?proofs/.*(?:has no field|is not in scope|has no `|was not admitted)")
OF_FUNCTIONS = re.compile(r"only=(\d+) proved=(\d+)")


def listed_edits(names=()):
    """The crates that have edits, with the paths of these, sorted by their names. Only some crates if there are names."""
    crates = [it for it in listed().values() if not names or it.name in names]
    paths = {it: [path for part in FOLDERS for path in glob.glob(os.path.join(it.folder, part, "*.edit"))] for it in crates}
    return {it: sorted(own, key=os.path.basename) for it, own in paths.items() if own}


def libraries_beside(names=()):
    """The libraries on which crates with edits stand, and the program does not. Only of some crates if there are names."""
    crates = listed()
    found = {it.name for crate in listed_edits(names) for it in below(crates, crates[crate.name])}
    return sorted(found - set(listed(NAME)))


class Unusable(Exception):
    """Why an edit cannot be applied."""


def applied(crate, edit):
    """The texts of the files that an edit changes, by their paths in the crate, and what the prover has to look at first."""
    path, old, place, texts = None, None, None, {}
    with open(edit, encoding="utf-8") as file:
        lines = file.read().split("\n")
    for line in lines:
        kind, _, rest = line.partition(":")
        if kind == "file":
            path = rest.strip()
            try:
                with open(os.path.join(crate.folder, path), encoding="utf-8") as file:
                    texts.setdefault(path, file.read())
            except OSError as error:
                raise Unusable(f"there is no file {path}") from error
        elif kind == "old":
            old = rest[1:]
        elif kind == "new":
            if not path or not old:
                raise Unusable("a new text without a file or an old one")
            if texts[path].count(old) != 1:
                raise Unusable(f"its old text is {texts[path].count(old)} times in {path}: {old.strip()}")
            place = place or place_of(path, texts[path].partition(old)[0] + old)
            texts[path], old = texts[path].replace(old, rest[1:]), None
    if not place:
        raise Unusable("it changes nothing")
    return texts, place


def why_not(crate, edit):
    """Why an edit of a crate cannot be applied, if it cannot."""
    try:
        applied(crate, edit)
    except Unusable as why:
        return str(why)
    return None


def place_of(path, text):
    """The function of a source in which the last line of a text stands, or its module, as the prover names it; "everything" in a definition or a proof."""
    if not path.startswith("src/"):
        return "everything"
    module = path[len("src/"):].removesuffix(".rt")
    words = [] if module in ("lib", "main") else module.split("/")
    methods, found = None, None
    for line in text.split("\n"):
        if head := METHODS.match(line):
            methods = head[2] + (head[1] or "")
        elif head := FUNCTION.match(line):
            found = [methods, head[2]] if head[1] else [head[2]]
        elif line.startswith("}"):
            methods = None
            found = None
    return "::".join(words + (found or [])) or "everything"


@functools.lru_cache
def toolchain():
    """The folder of the toolchain."""
    return kit()


def call(room, crates, crate):
    """The call of the prover on a copy of a crate, over the libraries of a room."""
    of_kit = [it for it in crate.line.partition(":")[2].split() if it not in crates]
    words = [os.path.join(toolchain(), "bin", "rattle"), "check", "--crate-name", crate.name, "src/lib.rt", "--links", f"{crate.name}="]
    for name in ["std", *of_kit]:
        words += ["--extern", f"{name}={os.path.join(toolchain(), 'rlibs', name)}.rlib"]
    words += ["-L", f"dependency={os.path.join(toolchain(), 'rlibs')}"]
    for it in below(crates, crate):
        folder = room.inside(os.path.join("out", "rlib"), it)
        words += ["-L", f"dependency={folder}"]
        if it.name in crate.libraries:
            words += ["--extern", f"{it.name}={os.path.join(folder, it.name)}.rlib"]
    words += ["--antt-project", os.path.join(toolchain(), "rattle", "logic", "antt-project.json")]
    words += ["--logic-built", os.path.join(toolchain(), "logic_built"), "--jobs", "1"]
    return words + (["--crate-type", "staticlib"] if "staticlib" in crate.line.split(":")[0] else [])


class Trial:
    """An edit that is tried."""

    def __init__(self, words, crate, edit, folder):
        self.crate, self.name = crate, os.path.basename(edit).removesuffix(".edit")
        self.words, self.begun, self.said, self.command = words, time.time(), [], None
        self.own = tempfile.mkdtemp(dir=folder)
        texts, self.place = applied(crate, edit)
        for part in PARTS:
            if os.path.isdir(os.path.join(crate.folder, part)):
                shutil.copytree(os.path.join(crate.folder, part), os.path.join(self.own, part))
        for path, text in texts.items():
            with open(os.path.join(self.own, path), "w", encoding="utf-8") as file:
                file.write(text)
        self.start()

    def start(self):
        """Starts the prover on what is to be looked at."""
        self.close()
        only = [] if self.place == "everything" else ["--only", self.place]
        self.said = []
        self.command = Command([*self.words, *only], self.own + ".log", self.said.append, cwd=self.own)

    def has_ended(self):
        """Whether it is known if the edit is refused."""
        status = self.command.status()
        if (status == 0 or status == CALLED_WRONGLY) and self.place != "everything":
            self.place = "everything"
            self.start()
            return False
        return status is not None

    def is_refused(self):
        """Whether the prover has read the edited text, and not proved it. An error of the text itself is none of a proof."""
        last = self.said[-1] if self.said else ""
        counts = OF_FUNCTIONS.match(last)
        return int(counts[2]) < int(counts[1]) if counts else last.startswith("logic=not-proved")

    def close(self):
        if self.command:
            self.command.close()

    def row(self):
        """What came of it, in a line; and what the prover said if the edit was not refused."""
        is_refused = self.is_refused()
        told = [it for it in self.said if WHERE.match(it)]
        first = next((it for it in told if not NAMES_WHAT_IS_GONE.match(it)), "only since a proof names what the edit took away" if is_refused else "")
        row = f"{'refused' if is_refused else 'NOT REFUSED'} {time.time() - self.begun:6.0f} s  {self.crate.name}/{self.name}  {self.place}  {first[:160]}"
        return [row] if is_refused else [row, *self.said[-20:]]


class Trials:
    """Edits that are tried, those of several crates side by side, and those of a crate one after the other."""

    def __init__(self, names, say, folder):
        self.crates, self.waiting, self.say, self.folder = listed(), listed_edits(names), say, folder
        self.lines = {it: it.lines() for it in self.waiting}
        self.lanes = max(1, min(len(os.sched_getaffinity(0)), memory() // BYTES_FOR_A_CHECK))
        self.rooms, self.running, self.count, self.passed = {}, [], sum(map(len, self.waiting.values())), 0

    def left(self):
        """How many edits were not begun."""
        return sum(map(len, self.waiting.values()))

    def words(self, crate):
        """The call of the prover on a copy of a crate. What was proved of the crate is kept in a folder, which begins with what `bin/build` has kept."""
        kept = os.path.join(self.folder, f"{crate.name}.kept")
        if crate not in self.rooms:
            self.rooms[crate] = Room(self.crates, crate)
            if os.path.isdir(os.path.join(crate.folder, "out", "incremental")):
                shutil.copytree(os.path.join(crate.folder, "out", "incremental"), kept)
            os.makedirs(kept, exist_ok=True)
        return [*call(self.rooms[crate], self.crates, crate), "--incremental", kept]

    def begin(self):
        """Begins edits while there is room: first those of crates of which `bin/build` has kept nothing, then those of the crate that has most to do."""
        busy = {it.crate for it in self.running}
        is_new = lambda it: not os.path.isdir(os.path.join(it.folder, "out", "incremental"))
        free = sorted((it for it in self.waiting if self.waiting[it] and it not in busy), key=lambda it: (is_new(it), self.lines[it] * len(self.waiting[it])))
        while free and len(self.running) < self.lanes:
            crate = free.pop()
            self.running.append(Trial(self.words(crate), crate, self.waiting[crate].pop(0), self.folder))

    def go_on(self):
        """Ends edits whose result is known, and begins others."""
        for it in [it for it in self.running if it.has_ended()]:
            self.running.remove(it)
            self.passed += it.is_refused()
            for line in it.row():
                self.say(f"{Progress.clear()}{line}")
            it.close()
            shutil.rmtree(it.own)
            if not self.waiting[it.crate]:
                self.rooms.pop(it.crate).leave()
        self.begin()

    def close(self):
        for it in self.running:
            it.close()
        for it in self.rooms.values():
            it.leave()


def try_all(names, say):
    """Tries the edits of all crates, or of those with these names, several side by side. Answers whether each edit was refused."""
    progress = Progress("")
    with tempfile.TemporaryDirectory(prefix="edits-") as folder:
        trials = Trials(names, say, folder)
        try:
            while trials.left() or trials.running:
                trials.go_on()
                progress.text = f"edits: {trials.count - trials.left() - len(trials.running)} of {trials.count} tried"
                progress.show()
                time.sleep(0.1)
        finally:
            trials.close()
    say(f"{trials.passed} of {trials.count} edits refused, in {progress.seconds() / 60:.1f} minutes")
    return trials.passed == trials.count
