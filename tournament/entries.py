"""What takes part: the problems, with the plan files of each planner, from a folder or from a manifest."""
from __future__ import annotations

import dataclasses
import hashlib
import os
import re
from fractions import Fraction
from typing import Dict, Iterable, List, Sequence, Tuple

from .exact import read_cost
from .names import last_number, numeric_order, shown
from .plans import UNPACK, Unread, is_compressed, read_file

PLAN_NAME = re.compile(r"sas_plan.*|plan([._-]?[0-9]+)?|plan\.(ipc|txt)|.+\.(plan|soln|SOL)", re.DOTALL)
LIKE_A_PLAN = re.compile(r"plan|soln|solution|(?<![a-z])sol(?![a-z])", re.IGNORECASE)
LOG_NAME = re.compile(r".*\.(log|err)", re.DOTALL | re.IGNORECASE)
PLAN, OTHER = "plan", "other"
OTHER_NAME = "it is not named as plans are"
FOLDER = "it is a folder, and plans are taken only from the planner's own folder"
MANIFEST = ["domain", "problem", "planner", "domain_file", "problem_file", "plan_file"]
REFERENCE = ["domain", "problem", "cost"]

ALL = slice(None)
References = Dict[Tuple[str, str], Fraction]


class Wrong(Exception):
    """What is wrong with the input as a whole, in words."""


@dataclasses.dataclass
class Entry:
    """A problem with the plan files of each planner, in their order. A planner without a file has no plan.

    PASSED has, for each planner that left some, what is passed over and may be a plan all the same: pairs of a path and the reason. OTHERS has
    one file of each planner that left files which do not look like plans.
    """
    domain: str
    problem: str
    domain_file: str
    problem_file: str
    plans: Dict[str, List[str]] = dataclasses.field(default_factory=dict)
    passed: Dict[str, List[Tuple[str, str]]] = dataclasses.field(default_factory=dict)
    others: Dict[str, str] = dataclasses.field(default_factory=dict)


def folders(path: str) -> List[str]:
    """The names of the folders in a folder, in numeric order. Hidden ones are left out."""
    with os.scandir(path) as found:
        return in_numeric_order(it.name for it in found if it.is_dir() and not it.name.startswith("."))


def in_numeric_order(names: Iterable[str]) -> List[str]:
    """Names in the order of the numbers in them."""
    return sorted(names, key=numeric_order)


def sorted_entries(entries: Iterable[Entry]) -> List[Entry]:
    """Entries in the order of their domains and problems."""
    return sorted(entries, key=lambda it: (numeric_order(it.domain), numeric_order(it.problem)))


class SameText:
    """Compares the files that different rows or runs name for a problem. Each file is read once, however many paths it has."""

    def __init__(self) -> None:
        self.known: Dict[Tuple[int, int], bytes] = {}

    def digest(self, path: str) -> bytes:
        """A digest of a file. Unread if it cannot be read."""
        try:
            about = os.stat(path)
        except OSError as error:
            raise Unread("cannot read %s: %s" % (path, error.strerror)) from error
        key = about.st_dev, about.st_ino
        if key not in self.known:
            self.known[key] = hashlib.sha256(read_file(path, path)).digest()
        return self.known[key]

    def take(self, entry: Entry, domain_file: str, problem_file: str) -> None:
        """Takes two more paths for those of an entry. Wrong says which of them has other bytes."""
        for old, new in (entry.domain_file, domain_file), (entry.problem_file, problem_file):
            if old != new:
                try:
                    why = "" if self.digest(old) == self.digest(new) else "%s differs from %s" % (new, old)
                except Unread as unread:
                    why = "%s and %s cannot be compared: %s" % (old, new, unread)
                if why:
                    raise Wrong("%s, and both are for domain %s, problem %s" % (why, shown(entry.domain), shown(entry.problem)))


def kind_of(item: os.DirEntry[str]) -> str:
    """What a file or folder in a planner's folder is: PLAN, OTHER, or the reason why it is passed over although it may be a plan."""
    if item.is_dir():
        return OTHER if item.name.startswith(".") else FOLDER
    packed = is_compressed(item.name)
    name = os.path.splitext(item.name)[0] if packed else item.name
    looks_like_one = LIKE_A_PLAN.search(name) and not LOG_NAME.fullmatch(name)
    if packed:
        return "it is " + UNPACK if looks_like_one else OTHER
    if PLAN_NAME.fullmatch(item.name):
        return PLAN
    return OTHER_NAME if looks_like_one else OTHER


def add_planner(entry: Entry, planner: str, path: str) -> None:
    """Sorts what is in a planner's folder into an entry, in numeric order."""
    with os.scandir(path) as found:
        items = sorted(((it.name, it.path, kind_of(it)) for it in found), key=lambda it: numeric_order(it[0]))
    entry.plans[planner] = [path for _, path, kind in items if kind == PLAN]
    passed = [(path, kind) for _, path, kind in items if kind not in (PLAN, OTHER)]
    others = [path for _, path, kind in items if kind == OTHER and not os.path.isdir(path)]
    entry.passed.update({planner: passed} if passed else {})
    entry.others.update({planner: it for it in others[:1]})


def from_folder(top: str, chosen: slice = ALL) -> List[Entry]:
    """The chosen entries of a folder DOMAIN/PROBLEM/PLANNER/sas_plan*. The file domain.pddl may be in DOMAIN as well."""
    if os.path.isfile(top):
        raise Wrong("%s is a file and no folder; a list of files is given with --manifest" % top)
    try:
        problems = [(domain, problem) for domain in folders(top) for problem in folders(os.path.join(top, domain))]
        if not problems:
            raise Wrong("%s has no folder DOMAIN/PROBLEM" % top)
        return [entry_of(top, *it) for it in problems[chosen]]
    except OSError as error:
        raise Wrong("cannot read %s: %s" % (error.filename, error.strerror)) from error


def entry_of(top: str, domain: str, problem: str) -> Entry:
    """The entry of one folder DOMAIN/PROBLEM."""
    here = os.path.join(top, domain, problem)
    own, common = os.path.join(here, "domain.pddl"), os.path.join(top, domain, "domain.pddl")
    chosen = common if os.path.exists(common) and not os.path.lexists(own) else own
    entry = Entry(domain, problem, chosen, os.path.join(here, "problem.pddl"))
    for planner in folders(here):
        add_planner(entry, planner, os.path.join(here, planner))
    return entry


def rows(path: str, columns: Sequence[str]) -> List[Tuple[int, List[str]]]:
    """The rows of a file with these columns between tabs, each with its line's number. A first line with the columns' names is left out."""
    try:
        with open(path, encoding="utf-8", errors="surrogateescape", newline="") as file:
            lines = file.read().split("\n")
    except OSError as error:
        raise Wrong("cannot read %s: %s" % (path, error.strerror)) from error
    found = []
    for number, line in enumerate(lines, 1):
        cells = line.rstrip("\r").split("\t")
        if cells == [""] or number == 1 and cells == columns:
            continue
        if len(cells) != len(columns):
            raise Wrong("%s line %d has %d columns, not %d: %s" % (path, number, len(cells), len(columns), ", ".join(columns)))
        found.append((number, cells))
    return found


def from_manifest(path: str) -> List[Entry]:
    """The entries of a manifest. Its paths start at the manifest's folder."""
    base = os.path.dirname(path)
    entries: Dict[Tuple[str, str], Entry] = {}
    same = SameText()
    for number, (domain, problem, planner, domain_file, problem_file, plan_file) in rows(path, MANIFEST):
        if not (domain and problem and planner and domain_file and problem_file):
            raise Wrong("%s line %d: only the last column may be empty" % (path, number))
        files = os.path.join(base, domain_file), os.path.join(base, problem_file)
        entry = entries.setdefault((domain, problem), Entry(domain, problem, *files))
        try:
            same.take(entry, *files)
        except Wrong as wrong:
            raise Wrong("%s line %d: %s" % (path, number, wrong)) from wrong
        plans = entry.plans.setdefault(planner, [])
        if plan_file:
            plans.append(os.path.join(base, plan_file))
    if not entries:
        raise Wrong("%s names no problem" % path)
    for entry in entries.values():
        entry.plans = {planner: in_order(plans) for planner, plans in entry.plans.items()}
    return sorted_entries(entries.values())


def in_order(plans: List[str]) -> List[str]:
    """Plan files of a manifest: in the order of the numbers at the ends of their names if each has one, else as given."""
    numbers = [number for number in map(last_number, plans) if number is not None]
    if len(numbers) < len(plans):
        return plans
    return [plan for _, plan in sorted(zip(numbers, plans), key=lambda it: it[0])]


def references(path: str) -> References:
    """The costs of a file of references, by the domain's and the problem's names as shown."""
    found: References = {}
    for number, (domain, problem, cost) in rows(path, REFERENCE):
        value = read_cost(cost)
        if value is None:
            raise Wrong("%s line %d: %s is no cost" % (path, number, shown(cost) or "an empty column"))
        if (domain, problem) in found:
            raise Wrong("%s line %d: a second cost for domain %s, problem %s" % (path, number, shown(domain), shown(problem)))
        found[domain, problem] = value
    return found
