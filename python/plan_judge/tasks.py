"""A domain and a problem that are read once."""
from __future__ import annotations

from types import TracebackType
from typing import Optional, Tuple, Type

from . import inputs
from .calls import Dialect, Program, _check_dialect, _check_files, _found, _library, _report, _shelf, find_program, judge
from .inputs import Named, Plans, Text
from .library import KeptTask, Shelf
from .verdicts import Report


class Task:
    """A domain and a problem, which are read once, to judge any number of plans.

        with Task(domain, problem, dialect="adl") as task:
            reports = [task.judge(plan) for plan in plans]

    The library keeps the task until `close` or the end of the `with` statement. Without a library, each call runs the program. Several threads may call `judge` of
    one task, but with the library they wait for each other: give each thread a task of its own. `program` is as for `judge`.

    Raises Refused if the domain or the problem is refused, and ProgramMissing and CallFailed.
    """

    def __init__(self, domain: Text, problem: Text, *, dialect: Dialect = "strips", program: Optional[Program] = None) -> None:
        _check_dialect(dialect)
        self._dialect, self._program = dialect, program
        self._kept: Optional[KeptTask] = None
        self._closed = False
        shelf, names = _shelf(domain, problem)
        _check_files(shelf, names)
        by = _library(program, None)
        if by is None:
            self._program = find_program(program)
            self._texts: Tuple[Named, Named] = _named(shelf, names)
            judge(*self._texts, b"", dialect=dialect, program=self._program)
            return
        self._kept, line = by.keep(shelf.files, dialect)
        if self._kept is None:
            _found(1, line)

    def judge(self, plans: Plans) -> Report:
        """Judges plans as `judge` does. Raises Refused, CallFailed, and ValueError if there are no plans or too many, or if the task is closed."""
        if self._closed:
            raise ValueError("the task is closed")
        if self._kept is None:
            return judge(*self._texts, plans, dialect=self._dialect, program=self._program)
        planners = inputs.named(plans)
        pieces = inputs.pieces(planners)
        if not pieces:
            raise ValueError("there are no plans")
        shelf = Shelf()
        _, shares = inputs.files(shelf, pieces)
        _check_files(shelf, (b"", b""))
        return _report(_found(*self._kept.judge(shelf.files)), [name for name, _ in planners], shares)

    def close(self) -> None:
        """Gives the task back. It may be called again, and no plan can be judged any more."""
        self._closed = True
        if self._kept is not None:
            self._kept.close()

    def __enter__(self) -> Task:
        return self

    def __exit__(self, kind: Optional[Type[BaseException]], error: Optional[BaseException], trace: Optional[TracebackType]) -> None:
        self.close()


def _named(shelf: Shelf, names: Tuple[bytes, bytes]) -> Tuple[Named, Named]:
    """The texts of a domain and a problem, with their names."""
    (domain, problem), (domain_name, problem_name) = shelf.contents, names
    return Named(domain_name.decode(), domain), Named(problem_name.decode(), problem)
