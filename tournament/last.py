"""What the last call left in the site's folder. If nothing has changed since, there is nothing to compute or to write.

All plan files are read and their contents compared, by the fingerprints of the problems. Sizes and times of files are compared only for what this
program wrote itself: a page that somebody has changed or removed is written again.
"""
from __future__ import annotations

import argparse
import contextlib
import itertools
import json
import os
from typing import Any, Dict, Iterable, List, Union

import plan_judge

from .entries import References
from .found import Judged
from .store import fingerprint, write

HERE = os.path.dirname(os.path.realpath(__file__))
RESULTS = ["results.tsv", "results.json"]
PAGES = ["index.html", "style.css", "planners", "domains", "problems", "compare", "plots"]


def code_mark() -> str:
    """A fingerprint of this program's own files, with its templates, and of those of the Python package."""
    pieces: List[Union[str, bytes]] = []
    for folder, names, files in itertools.chain(os.walk(HERE), os.walk(os.path.dirname(plan_judge.__file__))):
        names[:] = sorted(it for it in names if it != "__pycache__")
        for name in sorted(files):
            with open(os.path.join(folder, name), "rb") as file:
                pieces += [name, file.read()]
    return fingerprint(pieces)


def files_below(folder: str, parts: Iterable[str]) -> Dict[str, List[int]]:
    """The files of these parts of a folder: for each path its size and the time of its last change."""
    found: Dict[str, List[int]] = {}
    waiting = [it for it in parts if os.path.lexists(os.path.join(folder, it))]
    while waiting:
        path = waiting.pop()
        whole = os.path.join(folder, path)
        if os.path.isdir(whole):
            waiting += [os.path.join(path, it) for it in os.listdir(whole)]
        else:
            about = os.stat(whole)
            found[path] = [about.st_size, about.st_mtime_ns]
    return found


def digest(path: str) -> str:
    """The fingerprint of a file, or nothing if it cannot be read."""
    with contextlib.suppress(OSError):
        with open(path, "rb") as file:
            return fingerprint([file.read()])
    return ""


class Last:
    """What the last call with this folder made, with pages or without, and whether this call would make the same."""

    def __init__(self, given: argparse.Namespace, found: List[Judged], known: References) -> None:
        self.folder, self.pages = given.out, not given.no_site
        self.path = os.path.join(given.out, "reports", ".pages.json" if self.pages else ".results.json")
        self.code = code_mark()
        pieces = [self.code, repr((given.dialect, given.title, given.compare, sorted(known.items())))]
        for it in found:
            entry = it.entry
            pieces += [repr((entry.domain, entry.problem, list(entry.plans), entry.passed, entry.others)), it.mark]
        self.key = fingerprint(pieces)
        self.record = self.read()

    def read(self) -> Dict[str, Any]:
        """The record of the last call, or an empty one."""
        with contextlib.suppress(OSError, ValueError):
            with open(self.path, "rb") as file:
                record = json.load(file)
            if isinstance(record, dict):
                return record
        return {}

    def unchanged(self) -> bool:
        """Whether this call would make what is there."""
        return self.record.get("key") == self.key and self.record.get("results") == self.results() \
            and (not self.pages or self.record.get("files") == files_below(self.folder, PAGES))

    def results(self) -> Dict[str, str]:
        """The fingerprints of the files of results."""
        return {it: digest(os.path.join(self.folder, it)) for it in RESULTS}

    def forget(self) -> None:
        """Removes the record, before anything that it describes is changed."""
        with contextlib.suppress(FileNotFoundError):
            os.remove(self.path)

    def keep(self, said: Dict[str, Any], problems: Dict[str, str]) -> None:
        """Writes the record of this call: what it said, and from what each problem's page was made."""
        record = {"key": self.key, "results": self.results(), "said": said}
        if self.pages:
            record.update(files=files_below(self.folder, PAGES), problems=problems)
        write(self.path, json.dumps(record).encode())
