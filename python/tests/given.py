"""What several tests use: files of the repository, and the cases of tests/cases."""
from __future__ import annotations

import os
from pathlib import Path
from typing import Dict, Iterator, List, Optional, Set

TOP = Path(__file__).resolve().parents[2]
CASES = TOP / "tests" / "cases"
FERRY = TOP / "examples" / "ferry"
DOMAIN, PROBLEM = FERRY / "domain.pddl", FERRY / "problem.pddl"
SHORT, FAULTY = FERRY / "quick" / "sas_plan.2", FERRY / "quick" / "sas_plan.3"

OPTIONS = ("--domain", "--problem", "--dialect", "--workers")
MORE_THAN_A_CALL: Set[str] = {"make", "feed", "stdin", "stdin-is", "stderr-is", "stdout-to", "sweep"}


class Word(os.PathLike):  # type: ignore[type-arg]
    """A path exactly as it is written. pathlib would drop "./"."""

    def __init__(self, word: str) -> None:
        self.word = word

    def __fspath__(self) -> str:
        return self.word


class Case:
    """A case of tests/cases whose command line a call of the package can express."""

    def __init__(self, folder: Path, command: str, flags: Set[str]) -> None:
        self.name = folder.name
        self.folder = folder
        self.command = command
        self.flags = flags
        self.options: Dict[str, str] = {}
        self.plans: List[str] = []

    def text(self, name: str) -> bytes:
        path = self.folder / name
        return path.read_bytes() if path.exists() else b""

    @property
    def status(self) -> int:
        return int(self.text("status") or b"0")


def _case(folder: Path, command: str, flags: Set[str]) -> Optional[Case]:
    """The case, or None if its command line is of another kind."""
    words = (folder / "args").read_bytes().decode("utf-8", "surrogateescape").splitlines()
    if words[:1] != [command] or MORE_THAN_A_CALL & set(os.listdir(folder)):
        return None
    case, rest = Case(folder, command, set()), words[1:]
    while rest:
        word = rest.pop(0)
        if word in flags:
            case.flags.add(word)
        elif word in OPTIONS and word not in case.options and rest:
            case.options[word] = rest.pop(0)
        elif word.startswith("-"):
            return None
        else:
            case.plans.append(word)
    # Status 2 is for command lines, which this package does not let through.
    return case if {"--domain", "--problem"} <= set(case.options) and case.status < 2 else None


def cases(command: str, *flags: str) -> Iterator[Case]:
    """The cases of a command, which may also have these flags."""
    for folder in sorted(CASES.iterdir()):
        case = _case(folder, command, set(flags)) if folder.is_dir() else None
        if case:
            yield case
