"""Calls the library, or the program plan_judge."""
from __future__ import annotations

import dataclasses
import errno
import json
import os
import re
import shutil
import subprocess
import threading
from typing import List, Literal, Optional, Set, Tuple, Union

from . import inputs
from .errors import CallFailed, ProgramMissing, Refused, Stopped
from .inputs import Piece, Plans, Room, Share, Text, labelled
from .library import Library, Shelf, library
from .records import read_parts
from .verdicts import Planner, Report, Verdict

Dialect = Literal["strips", "ipc", "adl"]
Program = Union[str, "os.PathLike[str]"]

DOMAIN, PROBLEM = b"--domain=", b"--problem="
TOO_MANY = {"TooManyPlanners": "more than 64 planners", "TooManyPlans": "more than 65536 plans"}
LINE = re.compile(r"(domain|problem) line (\d+) bytes (\d+)-(\d+): (\w+)")
INSTALL = "install plan_judge, or set the environment variable PLAN_JUDGE to the path of the program"


@dataclasses.dataclass(frozen=True)
class Explanation:
    """What `explain` found. It is true if the domain and the problem are read and all plans are valid.

    str() is the text without the newline at its end, so that print adds no empty line.
    """

    text: str
    all_valid: bool

    def __bool__(self) -> bool:
        return self.all_valid

    def __str__(self) -> str:
        return self.text.removesuffix("\n")


class Stopper:
    """Ends calls from another thread. It may be given to any number of calls."""

    def __init__(self) -> None:
        self._lock = threading.Lock()
        self._running: Set[subprocess.Popen[bytes]] = set()
        self._is_stopped = False

    def stop(self) -> None:
        """Ends the programs of all calls that have this stopper. These calls and all later ones raise `Stopped`."""
        with self._lock:
            self._is_stopped = True
            for process in self._running:
                process.kill()

    def run(self, words: List[bytes]) -> Tuple[int, bytes, bytes]:
        """The status of a run, its output, and what it said on standard error. OSError if it cannot be started."""
        with self._lock:
            if self._is_stopped:
                raise Stopped("the call was stopped before it began")
            process = subprocess.Popen(words, stdin=subprocess.DEVNULL, stdout=subprocess.PIPE, stderr=subprocess.PIPE)
            self._running.add(process)
        with process:
            try:
                out, said = process.communicate()
            except BaseException:
                # Unlike subprocess.run, this waits for the end of the program even after KeyboardInterrupt.
                process.kill()
                process.wait()
                raise
            finally:
                with self._lock:
                    self._running.discard(process)
        if self._is_stopped:
            raise Stopped("the call was stopped")
        return process.returncode, out, said


def find_program(program: Optional[Program] = None) -> str:
    """The path of the program: the argument, else PLAN_JUDGE of the environment, else plan_judge on the PATH. ProgramMissing if there is none."""
    name = os.fspath(program) if program is not None else os.environ.get("PLAN_JUDGE") or "plan_judge"
    path = shutil.which(name)
    if path is None:
        raise ProgramMissing("there is no program %s: %s" % (name, INSTALL))
    return path


def _run(program: str, words: List[bytes], stopper: Optional[Stopper]) -> Tuple[int, str, str]:
    """The status of a run, its output, and what it said on standard error."""
    try:
        status, out, said = (stopper or Stopper()).run([os.fsencode(program), *words])
    except OSError as error:
        if error.errno == errno.E2BIG:
            raise ValueError("the plans are too many for one call: %s" % error.strerror) from error
        raise ProgramMissing("the program %s cannot be run: %s; %s" % (program, error.strerror, INSTALL)) from error
    return status, out.decode("utf-8", "surrogateescape"), said.decode("utf-8", "surrogateescape").removesuffix("\n")


def _check_dialect(dialect: Dialect) -> None:
    if dialect not in ("strips", "ipc", "adl"):
        raise ValueError("the dialect is strips, ipc or adl, not %r" % (dialect,))


def _library(program: Optional[Program], stopper: Optional[Stopper]) -> Optional[Library]:
    """The library, unless the caller names a program, or wants to end the call from another thread, which the library cannot do."""
    return None if program is not None or stopper is not None else library()


def _shelf(domain: Text, problem: Text) -> Tuple[Shelf, Tuple[bytes, bytes]]:
    """A domain and a problem for a call of the library, and their names."""
    shelf = Shelf()
    (domain_label, domain_source), (problem_label, problem_source) = labelled(domain, "domain"), labelled(problem, "problem")
    return shelf, (shelf.word(domain_source, domain_label), shelf.word(problem_source, problem_label))


def _judged(by: Library, domain: Text, problem: Text, pieces: List[Piece], dialect: Dialect) -> Tuple[str, List[List[Share]]]:
    """The report of the library in JSON, and the shares in each file."""
    shelf, task = _shelf(domain, problem)
    _, shares = inputs.files(shelf, pieces)
    _check_files(shelf, task)
    return _found(*by.judge(shelf.files, dialect)), shares


def _check_files(shelf: Shelf, task: Tuple[bytes, bytes]) -> None:
    """Refused if a file cannot be read or is too large. The names are those of the domain and of the problem."""
    name, how, kind = shelf.unreadable, "cannot read %s", "cannot read"
    if name is None:
        name, how, kind = shelf.too_large, "%s is too large", "too large"
    if name is not None:
        raise Refused(how % name.decode(), "domain" if name == task[0] else "problem" if name == task[1] else "plan", kind)


def _found(status: int, text: bytes) -> str:
    """A report of the library. An exception if it is the line of a refusal."""
    found = text.decode("utf-8", "surrogateescape")
    if status != 0:
        raise _refusal(found.removesuffix("\n"))
    return found


def _refusal(line: str) -> Exception:
    """The exception for the line of a refusal."""
    fault = LINE.fullmatch(line)
    if fault is None:
        return ValueError("the plans are too many for one call: %s" % line)
    file, number, start, end, kind = fault.groups()
    return Refused(line, file, kind, int(number), (int(start), int(end)))


def _explained(by: Library, domain: Text, problem: Text, pieces: List[Piece], dialect: Dialect, trace: bool) -> Optional[Explanation]:
    """The explanation of the library. None if a file is none or cannot be read, for which the program has to say why."""
    sources = [labelled(domain)[1], labelled(problem)[1], *(it.source for it in pieces)]
    if not all(isinstance(it, bytes) or os.path.isfile(it) for it in sources):
        return None
    shelf, _ = _shelf(domain, problem)
    for it in pieces:
        shelf.word(it.source, it.label)
    if shelf.unreadable is not None or shelf.too_large is not None:
        return None
    status, text = by.explain(shelf.files, dialect, trace)
    return Explanation(text.decode("utf-8", "surrogateescape"), status == 0)


def _task(room: Room, domain: Text, problem: Text, dialect: Dialect) -> List[bytes]:
    """The words of the command line for a domain and a problem. They end with `--`: a plan's path may begin with a dash."""
    (domain_label, domain_source), (problem_label, problem_source) = labelled(domain, "domain"), labelled(problem, "problem")
    domain_word, problem_word = room.word(domain_source, domain_label), room.word(problem_source, problem_label)
    return [b"--dialect=" + dialect.encode(), DOMAIN + domain_word, PROBLEM + problem_word, b"--"]


def _error(status: int, message: str, task: List[bytes], room: Room) -> Exception:
    """The exception for a run without a report. If an input was refused, the program printed an object that says which and why."""
    if status != 1:
        return CallFailed(status, room.outside(message))
    try:
        found = json.loads(message)
        kind, name, line, span = found["kind"], found["file"], found["line"], found["bytes"]
    except (KeyError, TypeError, ValueError):
        return CallFailed(status, room.outside(message))
    if name is None:
        return ValueError("the plans are too many for one call: %s" % TOO_MANY.get(kind, kind))
    _, domain, problem, _ = task
    words = [("domain", domain.removeprefix(DOMAIN)), ("problem", problem.removeprefix(PROBLEM))]
    file = next((file for file, word in words if word.decode() == name), "plan")
    if line is not None:
        return Refused("%s line %d bytes %d-%d: %s" % (file, line, *span, kind), file, kind, line, (span[0], span[1]))
    text, kind = ("cannot read %s", "cannot read") if kind == "Unreadable" else ("%s is too large", "too large")
    return Refused(room.outside(text % name), file, kind)


def judge(
    domain: Text, problem: Text, plans: Plans, *, dialect: Dialect = "strips", workers: int = 4, program: Optional[Program] = None,
    stopper: Optional[Stopper] = None
) -> Report:
    """Judges plans by one call of the library, or by one run of the program if there is no library or if the call has a program or a stopper.
    The help of the package says which arguments are paths and which are texts.

    dialect   "ipc" also reads action costs and equality, and "adl" besides disjunctions, quantifiers and conditional effects
    workers   how many threads of the program may judge, 1 to 32; the library judges on the thread that calls
    program   the path of the program; by default the one that the environment variable PLAN_JUDGE names, or plan_judge on the PATH
    stopper   ends this call if another thread calls its `stop`

    Raises Refused, ProgramMissing, CallFailed, Stopped, and ValueError if there are no plans or too many.
    """
    if workers not in range(1, 33):
        raise ValueError("workers is 1 to 32, not %r" % (workers,))
    planners = inputs.named(plans)
    pieces = inputs.pieces(planners)
    if not pieces:
        raise ValueError("there are no plans")
    by = _library(program, stopper)
    if by is not None:
        _check_dialect(dialect)
        out, shares = _judged(by, domain, problem, pieces, dialect)
    else:
        path = find_program(program)
        _check_dialect(dialect)
        with Room() as room:
            task = _task(room, domain, problem, dialect)
            files, shares = inputs.files(room, pieces)
            words = [b"judge", b"--format=json", b"--workers=%d" % workers, *task, *files]
            status, out, message = _run(path, words, stopper)
            if status != 0:
                raise _error(status, message, task, room)
    return _report(out, [name for name, _ in planners], shares)


def _report(out: str, names: List[str], shares: List[List[Share]]) -> Report:
    """The report of a text in JSON, for planners with these names."""
    try:
        found = read_parts(out)
    except ValueError as error:
        raise CallFailed(0, "it printed no report in JSON") from error
    verdicts = _shared([own for _, own in found.planners], shares, len(names))
    listed = tuple([Planner(name, tuple(own)) for name, own in zip(names, verdicts)])
    return Report(found.domain, found.problem, listed, found.counts_costs)


def _shared(files: List[List[Verdict]], shares: List[List[Share]], planners: int) -> List[List[Verdict]]:
    """The verdicts of each planner, from those of each file. They have to be about the plans of the call."""
    verdicts: List[List[Verdict]] = [[] for _ in range(planners)]
    if len(files) != len(shares):
        raise CallFailed(0, "it printed a report on other plans")
    for own, parts in zip(files, shares):
        if len(parts) == 1:  # A file with one share has as many plans as the program counts.
            verdicts[parts[0].planner] += own
        elif len(own) != sum(it.plans for it in parts):
            raise CallFailed(0, "it printed a report on other plans")
        else:
            rest = iter(own)
            for part in parts:
                verdicts[part.planner] += part.verdicts(rest)
    return verdicts


def explain(
    domain: Text, problem: Text, plans: Plans = (), *, dialect: Dialect = "strips", trace: bool = False, program: Optional[Program] = None,
    stopper: Optional[Stopper] = None
) -> Explanation:
    """Explains, for people, why a text is refused or a plan fails. Without plans it checks the domain and the problem.

    The arguments are those of `judge`, and with `trace` the explanation also lists what each step deletes and adds. A text is called by its
    name if it is Named, otherwise by that of its planner. Raises ProgramMissing, CallFailed and Stopped, but not Refused: a file that cannot be read is explained too.
    """
    pieces = inputs.pieces(inputs.named(plans))
    by = _library(program, stopper)
    if by is not None:
        _check_dialect(dialect)
        found = _explained(by, domain, problem, pieces, dialect, trace)
        if found is not None:
            return found
    path = find_program(program)
    _check_dialect(dialect)
    with Room() as room:
        task = _task(room, domain, problem, dialect)
        files = [room.word(it.source, it.label) for it in pieces]
        words = [b"explain", *([b"--trace"] if trace else []), *task, *files]
        status, out, message = _run(path, words, stopper)
        if status not in (0, 1) or not out:
            raise CallFailed(status, room.outside(message))
        return Explanation(room.outside(out), status == 0)
