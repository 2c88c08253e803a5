"""Plan files: their texts, what the planner says of their costs, and the bundles that plan_judge takes."""
from __future__ import annotations

import dataclasses
import os
import re
import stat
from typing import Dict, List, Mapping, Sequence, Tuple

from .names import file_name, shown

MOST_BYTES = 16777216  # of a file, as plan_judge reads it
MOST_PLANS = 65536  # of a call of plan_judge
MOST_PLANNERS = 64  # of a call of plan_judge
SEPARATOR = re.compile(rb"^---[ \t\r]*(?:\n|\Z)", re.MULTILINE)
OWN_COST = re.compile(rb"^[ \t]*;[ \t]*cost[ \t]*[=:][ \t]*([0-9]{1,18}(?:\.[0-9]{1,18})?)(?![0-9.e])", re.MULTILINE | re.IGNORECASE)
COMPRESSED = (".xz", ".gz", ".bz2", ".zip", ".zst")
UNPACK = "compressed: unpack it first"


class Unread(Exception):
    """Why a file cannot be judged, in words."""


@dataclasses.dataclass
class Plan:
    """A plan of a planner: the file, which part of it, and the cost that the planner says.

    It is plan NUMBER of the bundle BUNDLE in the report, or was not judged: UNREAD says why.
    """
    planner: str
    file: str
    part: int = 0
    own_cost: str = ""
    bundle: str = ""
    number: int = 0
    unread: str = ""


@dataclasses.dataclass
class Bundle:
    """A file for plan_judge: plans of one planner, with a line of three dashes between two."""
    name: str
    texts: List[bytes] = dataclasses.field(default_factory=list)
    size: int = 0

    def has_room(self, text: bytes) -> bool:
        """Whether one more plan can be added within the limits."""
        return len(self.texts) < MOST_PLANS and self.size + len(text) + 5 <= MOST_BYTES

    def add(self, text: bytes) -> int:
        """Adds a plan, and returns its number."""
        self.texts.append(text)
        self.size += len(text) + 5
        return len(self.texts)

    def content(self) -> bytes:
        """The bytes of the file. A text without a newline at its end gets one only where a separator follows."""
        closed = [it if it.endswith(b"\n") or not it else it + b"\n" for it in self.texts[:-1]]
        return b"---\n".join(closed + self.texts[-1:])


def is_compressed(name: str) -> bool:
    """Whether a file is compressed, by its name."""
    return name.lower().endswith(COMPRESSED)


def read_file(path: str, name: str) -> bytes:
    """The bytes of a file that plan_judge can take."""
    if is_compressed(path):
        raise Unread("%s is %s" % (name, UNPACK))
    try:
        descriptor = os.open(path, os.O_RDONLY | os.O_NONBLOCK | os.O_CLOEXEC)  # so that a pipe does not block
        try:
            about = os.fstat(descriptor)
            if not stat.S_ISREG(about.st_mode):
                raise Unread("%s is no file" % name)
            text = os.read(descriptor, min(about.st_size, MOST_BYTES) + 1)
            while len(text) <= MOST_BYTES and (more := os.read(descriptor, MOST_BYTES)):
                text += more
        finally:
            os.close(descriptor)
    except OSError as error:
        raise Unread("cannot read %s: %s" % (name, error.strerror)) from error
    if len(text) > MOST_BYTES:
        raise Unread("%s is too large: plan_judge takes files of up to %d bytes" % (name, MOST_BYTES))
    return text


def own_cost(text: bytes) -> str:
    """What the planner says that the plan costs (its last line "; cost = N"), as text, or nothing."""
    found: List[bytes] = OWN_COST.findall(text)
    return found[-1].decode() if found else ""


def labels(paths: Sequence[str]) -> List[str]:
    """What the files are called on the pages: their names if these differ, else their paths."""
    names = [os.path.basename(it) for it in paths]
    return [shown(it) for it in (names if len(set(names)) == len(names) else paths)]


@dataclasses.dataclass
class PlanFile:
    """A file of a planner, with its bytes, or why it cannot be judged."""
    planner: str
    name: str
    text: bytes = b""
    unread: str = ""


def plan_files(plans: Mapping[str, Sequence[str]]) -> List[PlanFile]:
    """The files of all planners, read; plans has the paths of each."""
    files = []
    for planner, paths in plans.items():
        for path, name in zip(paths, labels(paths)):
            try:
                files.append(PlanFile(planner, name, read_file(path, name)))
            except Unread as unread:
                files.append(PlanFile(planner, name, unread=str(unread)))
    return files


def bundled(files: Sequence[PlanFile]) -> Tuple[List[Plan], List[Bundle]]:
    """The plans of files with their bundles. A file with separators holds several plans."""
    plans: List[Plan] = []
    bundles: Dict[str, List[Bundle]] = {}
    for file in files:
        if file.unread:
            plans.append(Plan(file.planner, file.name, unread=file.unread))
            continue
        own = bundles.setdefault(file.planner, [])
        texts = SEPARATOR.split(file.text) if b"---" in file.text else [file.text]
        for part, text in enumerate(texts, 1):
            if not own or not own[-1].has_room(text):
                own.append(Bundle(file_name(file.planner) + ("+%d" % (len(own) + 1) if own else "")))
            number = own[-1].add(text)
            plans.append(Plan(file.planner, file.name, part if len(texts) > 1 else 0, own_cost(text), own[-1].name, number))
    return plans, [it for own in bundles.values() for it in own]


def batches(bundles: Sequence[Bundle]) -> List[List[Bundle]]:
    """The bundles in groups, each of which one call of plan_judge can take."""
    groups: List[List[Bundle]] = []
    count = 0
    for bundle in bundles:
        if not groups or len(groups[-1]) == MOST_PLANNERS or count + len(bundle.texts) > MOST_PLANS:
            groups.append([])
            count = 0
        groups[-1].append(bundle)
        count += len(bundle.texts)
    return groups
