"""What can go wrong with a call."""
from __future__ import annotations

from typing import Optional, Tuple


class Error(Exception):
    """Any error of this package."""


class Refused(Error):
    """A file or text is refused. The text of the exception is the line that the program printed."""

    status = 1  # of the program

    def __init__(self, message: str, file: str, kind: str, line: Optional[int] = None, span: Optional[Tuple[int, int]] = None) -> None:
        super().__init__(message, file, kind, line, span)  # all arguments, so that the exception can be pickled
        self.message = message
        self.file = file  # "domain", "problem" or "plan"
        self.kind = kind  # the kind of fault, such as "UnknownName", or "cannot read" or "too large"
        self.line = line  # counted from 1; None if the file is not read
        self.span = span  # the faulty bytes: the first, counted from 0, and the end, which is not part of them

    def __str__(self) -> str:
        return self.message


class ProgramMissing(Error):
    """The program plan_judge is not found, or cannot be run."""


class Stopped(Error):
    """A call was ended by its stopper, or not begun because of it."""


class CallFailed(Error):
    """The program ended in another way than with an answer or a refusal."""

    def __init__(self, status: int, message: str) -> None:
        super().__init__(status, message)
        self.status = status  # as in subprocess.CompletedProcess: if a signal ended the program, its number, negated
        self.message = message  # what the program printed on standard error

    def __str__(self) -> str:
        return "plan_judge ended with status %d: %s" % (self.status, self.message or "no message")
