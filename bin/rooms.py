"""Rooms: temporary copies of a crate with the libraries below it, in which rt can work while it works elsewhere in the repository too.

While rt runs on a crate, no other run can use that crate or the libraries below it. In rooms, several runs go on side by side. A room has links to the
files of the libraries, and to what was built of them, so it takes no memory and hardly any time.
"""
import fcntl
import os
import re
import shutil
import tempfile

TOP = os.path.dirname(os.path.dirname(os.path.realpath(__file__)))
PARTS = ("src", "specs", "proofs")


class Crate:
    def __init__(self, name, line, libraries):
        self.name = name
        self.line = line
        self.libraries = libraries
        self.folder = os.path.join(TOP, "crates", name)

    def lines(self):
        """How much source there is."""
        found = 0
        for part in PARTS:
            for at, _, files in os.walk(os.path.join(self.folder, part)):
                for name in files:
                    with open(os.path.join(at, name), "rb") as file:
                        found += file.read().count(b"\n")
        return found


def listed(wanted=None):
    """The crates of crates.txt, or one of them and the libraries that it stands on, by name, each behind its libraries."""
    lines, libraries, order = {}, {}, []
    with open(os.path.join(TOP, "crates.txt"), encoding="utf-8") as file:
        for line in file:
            head, _, rest = line.partition("#")[0].partition(":")
            if head.split():
                lines[head.split()[0]], libraries[head.split()[0]] = line, rest.split()

    def add(name):
        for it in libraries[name]:
            if it in libraries:
                add(it)
        if name not in order:
            order.append(name)

    for name in [wanted] if wanted else libraries:
        add(name)
    return {name: Crate(name, lines[name], [it for it in libraries[name] if it in libraries]) for name in order}


def below(crates, crate):
    """The libraries of the repository below a crate, each once and behind its own."""
    found = []
    for name in crate.libraries:
        found += [it for it in [*below(crates, crates[name]), crates[name]] if it not in found]
    return found


def link(source, target):
    """A second name for a file, or a copy of it where they are on two file systems."""
    try:
        os.link(source, target)
    except OSError:
        shutil.copy2(source, target)


class Room:
    """A temporary folder with a crate and the libraries below it. Nobody else works in the crate's own folder meanwhile."""

    def __init__(self, crates, crate):
        self.crate = crate
        self.held = os.open(crate.folder, os.O_RDONLY)
        fcntl.flock(self.held, fcntl.LOCK_EX)
        self.top = tempfile.mkdtemp(prefix=f"room-{crate.name}-")
        needed = [*below(crates, crate), crate]
        with open(os.path.join(self.top, "crates.txt"), "w", encoding="utf-8") as file:
            file.writelines(it.line for it in needed)
        for it in needed:
            for part in PARTS if it is crate else (*PARTS, os.path.join("out", "rlib")):
                if os.path.isdir(os.path.join(it.folder, part)):
                    shutil.copytree(os.path.join(it.folder, part), self.inside(part, it), copy_function=link)

    def inside(self, part="", crate=None):
        return os.path.join(self.top, "crates", (crate or self.crate).name, part)

    def take_work(self):
        """Brings what earlier runs left of the crate into the room."""
        if os.path.isdir(os.path.join(self.crate.folder, "out")):
            shutil.move(os.path.join(self.crate.folder, "out"), self.inside("out"))

    def give_work_back(self):
        """Moves what there is of the crate's work into the repository, in place of what is there."""
        if os.path.isdir(self.inside("out")):
            shutil.rmtree(os.path.join(self.crate.folder, "out"), ignore_errors=True)
            shutil.move(self.inside("out"), os.path.join(self.crate.folder, "out"))

    def leave(self):
        shutil.rmtree(self.top, ignore_errors=True)
        os.close(self.held)


def memory():
    """The free memory in bytes."""
    with open("/proc/meminfo", encoding="ascii") as file:
        return 1024 * int(re.search(r"MemAvailable:\s+(\d+)", file.read())[1])
