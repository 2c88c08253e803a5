"""What takes part in an experiment of Lab: its runs, each of an algorithm on a problem."""
from __future__ import annotations

import glob
import json
import lzma
import os
from typing import Any, Dict, Iterator, List, Tuple

from .entries import ALL, OTHER, PLAN, Entry, SameText, Wrong, folders, in_numeric_order, kind_of
from .names import numeric_order, shown
from .plans import is_compressed

NAMES = ("domain", "problem", "algorithm")
PROPERTIES = ("static-properties", "properties")  # the second has what was found in the logs, and may repeat the first
LOGS = ("driver.log", "run.log")  # at least one is written as soon as a run begins
KNOWN = {"domain.pddl", "problem.pddl", *PROPERTIES, *LOGS}  # what most runs have beside plans
NOT_BEGUN = "the run has not begun"


def from_lab(top: str, chosen: slice = ALL) -> List[Entry]:
    """The chosen entries of an experiment."""
    problems = runs_by_problem(top)
    names = sorted(problems, key=lambda it: (numeric_order(it[0]), numeric_order(it[1])))
    same = SameText()
    return [entry_of(*it, problems[it], same) for it in names[chosen]]


def runs_by_problem(top: str) -> Dict[Tuple[str, str], Dict[str, str]]:
    """For the names of each domain and problem the algorithms with the folders of their runs, runs-*/*."""
    runs = [os.path.join(batch, it) for batch in in_numeric_order(glob.glob(os.path.join(glob.escape(top), "runs-*"))) for it in folders_in(batch)]
    if not runs:
        raise Wrong("%s is no experiment of Lab: %s" % (top, why_none(top)))
    problems: Dict[Tuple[str, str], Dict[str, str]] = {}
    for run in runs:
        domain, problem, algorithm = names_of(run)
        other = problems.setdefault((domain, problem), {}).setdefault(algorithm, run)
        if other != run:
            raise Wrong("%s and %s are runs of the same algorithm %s on the same problem, %s %s" % (
                other, run, shown(algorithm), shown(domain), shown(problem)))
    return problems


def entry_of(domain: str, problem: str, runs: Dict[str, str], same: SameText) -> Entry:
    """The entry of a problem, whose files are those of its first run."""
    files = [(os.path.join(run, "domain.pddl"), os.path.join(run, "problem.pddl")) for run in runs.values()]
    entry = Entry(domain, problem, *files[0])
    for it in files[1:]:
        same.take(entry, *it)
    for algorithm, run in runs.items():
        add_run(entry, algorithm, run)
    return entry


def why_none(top: str) -> str:
    """Why a folder has no runs."""
    if not os.path.isdir(top):
        return "there is no such folder"
    if any(os.path.exists(os.path.join(top, it)) for it in ("properties", "properties.xz")):
        return "it has properties and no runs; the plans are in the folder of the experiment, without -eval"
    return "it has no folder runs-*/*"


def folders_in(batch: str) -> List[str]:
    """The names of the runs in a folder runs-*."""
    try:
        return folders(batch) if os.path.isdir(batch) else []
    except OSError as error:
        raise Wrong("cannot read %s: %s" % (batch, error.strerror)) from error


def property_files(run: str) -> Iterator[str]:
    """The files of a run with properties. Lab compresses some."""
    for name in PROPERTIES:
        paths = os.path.join(run, name), os.path.join(run, name + ".xz")
        yield from [it for it in paths if os.path.exists(it)][:1]


def names_of(run: str) -> List[str]:
    """The domain, the problem and the algorithm of a run."""
    found = list(property_files(run))
    if not found:
        raise Wrong("%s is no run of Lab: it has neither %s nor %s" % (run, *PROPERTIES))
    values: Dict[str, Any] = {}
    for path in found:
        values.update(properties(path))
    for name in NAMES:
        if name not in values:
            raise Wrong("%s: there is no property %s" % (" and ".join(found), name))
        if not isinstance(values[name], str) or not values[name]:
            raise Wrong("%s: the property %s is no name: %s" % (" and ".join(found), name, json.dumps(values[name])))
    return [values[it] for it in NAMES]


def properties(path: str) -> Dict[str, Any]:
    """The object in a file, which may be compressed as Lab does it."""
    try:
        with (lzma.open(path) if is_compressed(path) else open(path, "rb")) as file:
            found = json.loads(file.read())
    except (EOFError, OSError, lzma.LZMAError) as error:
        raise Wrong("cannot read %s: %s" % (path, getattr(error, "strerror", None) or error)) from error
    except json.JSONDecodeError as error:
        raise Wrong("%s line %d column %d is not JSON: %s" % (path, error.lineno, error.colno, error.msg)) from error
    except (RecursionError, ValueError) as error:
        raise Wrong("%s is not JSON: %s" % (path, error)) from error
    if not isinstance(found, dict):
        raise Wrong("%s is no object in JSON" % path)
    return found


def add_run(entry: Entry, algorithm: str, run: str) -> None:
    """Adds the plans of a run. Only what is named as plans are is taken for one, since Lab's own files are there too."""
    try:
        with os.scandir(run) as found:
            items = list(found)
            kinds = {it.name: kind_of(it) for it in items if it.name not in KNOWN and not it.is_dir()}
    except OSError as error:
        raise Wrong("cannot read %s: %s" % (run, error.strerror)) from error
    plans = in_numeric_order(it for it, kind in kinds.items() if kind == PLAN)
    packed = in_numeric_order(it for it, kind in kinds.items() if kind not in (PLAN, OTHER) and is_compressed(it))
    entry.plans[algorithm] = [os.path.join(run, it) for it in plans]
    passed = [(os.path.join(run, it), kinds[it]) for it in packed]
    if not plans and not any(it.name in LOGS for it in items):
        passed.append((run, NOT_BEGUN))
    entry.passed.update({algorithm: passed} if passed else {})
