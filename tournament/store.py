"""The reports that are kept in the site's folder, so that an interrupted call goes on where it stopped.

reports/DOMAIN/PROBLEM.txt is what plan_judge prints. PROBLEM.json beside it says from which input: a fingerprint of the program, the dialect, the
domain, the problem and all plans. Below this it has the same report as plan_judge prints it with --format json. It is written last, so a report
counts only when it is whole.
"""
from __future__ import annotations

import contextlib
import dataclasses
import hashlib
import json
import os
import secrets
from typing import Any, Dict, Iterable, List, Optional, Union

from .entries import Entry
from .found import Reports
from .names import file_name

BETWEEN = "\n\n"  # the record and the reports: no line of theirs is empty


def write(path: str, data: bytes) -> None:
    """Writes a file as a whole: under another name, which is changed once all of it is written. That name is new, since a call on another machine
    may write the same file.
    """
    os.makedirs(os.path.dirname(path), exist_ok=True)
    new = "%s.%s.new" % (path, secrets.token_hex(8))
    try:
        with open(new, "xb") as file:
            file.write(data)
        os.replace(new, path)
    except BaseException:
        with contextlib.suppress(OSError):
            os.remove(new)
        raise


def fingerprint(pieces: Iterable[Union[str, bytes]]) -> str:
    """A digest of a list of texts, for which no other list of texts is known."""
    whole = hashlib.sha256()
    for piece in pieces:
        data = piece if isinstance(piece, bytes) else piece.encode("utf-8", "surrogateescape")
        whole.update(b"%d:" % len(data))
        whole.update(data)
    return whole.hexdigest()


@dataclasses.dataclass
class Answer:
    """What plan_judge answers for a problem: why it refuses the input if it does, its reports, and what else went wrong, if anything did.

    EXPLAINED has explanations by the file names of planners: of each one's first plan that is not valid. Under the empty name it has that of
    the refused input. It is None as long as nobody has asked for it. PLANS has the fields of each Plan, and UNSCORED says why the problem is
    not scored, so that a kept answer is of use without reading the input again.
    """
    refused: str = ""
    reports: Reports = dataclasses.field(default_factory=Reports)
    trouble: str = ""
    explained: Optional[Dict[str, str]] = None
    plans: List[Any] = dataclasses.field(default_factory=list)
    unscored: str = ""


class Store:
    """The reports below a folder."""

    def __init__(self, folder: str) -> None:
        self.folder = folder

    def path(self, entry: Entry, ending: str) -> str:
        """Where a problem's report or record is."""
        return os.path.join(self.folder, file_name(entry.domain), file_name(entry.problem) + ending)

    def has(self, entry: Entry) -> bool:
        """Whether an answer for a problem is kept, which may be that for another input."""
        return os.path.exists(self.path(entry, ".json"))

    def kept(self, entry: Entry, mark: str) -> Optional[Answer]:
        """The answer for a problem, if it was made from this input."""
        with contextlib.suppress(OSError, ValueError, KeyError, TypeError):
            with open(self.path(entry, ".json"), "rb") as file:
                first, *written = file.read().decode("utf-8", "surrogateescape").rstrip("\n").split(BETWEEN)
            with open(self.path(entry, ".txt"), "rb") as file:
                text = file.read()
            record = json.loads(first)
            if record["input"] == mark and record["report"] == fingerprint([text]):
                return Answer(reports=Reports(written=[it + "\n" for it in written]), **record["answer"])
        return None

    def keep(self, entry: Entry, mark: str, answer: Answer) -> None:
        """Keeps the answer for a problem."""
        rest = {it: getattr(answer, it) for it in ("refused", "explained", "plans", "unscored")}
        text = answer.reports.text.encode("utf-8", "surrogateescape")
        record = json.dumps({"input": mark, "report": fingerprint([text]), "answer": rest})
        parts = [record, *(it.rstrip("\n") for it in answer.reports.written)]
        write(self.path(entry, ".txt"), text)
        write(self.path(entry, ".json"), (BETWEEN.join(parts) + "\n").encode("utf-8", "surrogateescape"))
