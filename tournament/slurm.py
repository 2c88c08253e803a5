"""Has problems judged by the tasks of a job array of Slurm. Each task is a call of bin/tournament with --share, on a machine that sees the same
folders. What the tasks leave is judged here afterwards.
"""
from __future__ import annotations

import argparse
import contextlib
import os
import shlex
import shutil
import signal
import subprocess
import sys
import time
from typing import Callable, Dict, Iterator, List, Optional, Sequence, Tuple

from .entries import Entry, Wrong
from .store import Store

Tell = Callable[[str], None]
Stamp = Optional[Tuple[int, int, int]]

LOGS = "slurm"  # the folder of the site with what tasks said
SHORTEST, LONGEST = 0.2, 5.0  # seconds between two looks at the queue: a tenth of the time so far, within these limits
GRACE = 10.0  # seconds for tasks to end once all reports are there
PATIENCE = 30.0  # seconds for the first task to begin, before the user is told what the job waits for
MOST_REASONS = 3  # why tasks failed, as told to the user
COMMANDS = ("sbatch", "squeue", "scancel")
ENDED = "Invalid job id specified"  # squeue, of a job that Slurm has forgotten


def share(which: int, count: int) -> slice:
    """The entries of a share, counted from 1."""
    return slice(which - 1, None, count)


class Tasks:
    """The problems that are judged elsewhere, each by the task of its share."""

    def __init__(self, store: Store, entries: Sequence[Entry], left: Sequence[int], most: int) -> None:
        self.count = min(most, len(entries))
        self.left = list(left)
        self.paths = {at: store.path(entries[at], ".json") for at in left}
        self.before = {at: stamp(path) for at, path in self.paths.items()}

    def shares(self) -> List[int]:
        """The shares that have such problems."""
        return sorted({at % self.count + 1 for at in self.left})

    def waiting(self) -> List[int]:
        """The problems without a new report. A report is new if it is another file than before."""
        self.left = [at for at in self.left if stamp(self.paths[at]) == self.before[at]]
        return self.left


def stamp(path: str) -> Stamp:
    """What tells one version of a file from the next."""
    try:
        about = os.stat(path)
    except OSError:
        return None
    return about.st_ino, about.st_size, about.st_mtime_ns


class Job:
    """A job array in the queue."""

    def __init__(self, number: str, logs: str) -> None:
        self.number, self.logs = number, logs

    def unfinished(self) -> Optional[List[List[str]]]:
        """For each task that waits or runs its state and the reason for it, or None if Slurm does not answer."""
        done = call("squeue", "--noheader", "--array", "--jobs=" + self.number, "--format=%T %r")
        if done.returncode:
            return [] if ENDED in done.stderr else None
        return [it.split(None, 1) for it in done.stdout.splitlines()]

    def cancel(self, tell: Tell) -> None:
        """Ends all tasks."""
        done = call("scancel", self.number)
        if done.returncode:
            tell("job %s may still run: %s" % (self.number, one_line(done.stderr)))

    def log(self, task: int) -> str:
        """The file with what a task said."""
        return os.path.join(self.logs, "%s-%d.txt" % (self.number, task))

    def said(self, task: int) -> str:
        """The last line that a task said."""
        with contextlib.suppress(OSError):
            with open(self.log(task), encoding="utf-8", errors="replace") as file:
                lines = file.read().split("\n")
            return next((it.strip() for it in reversed(lines) if it.strip()), "it said nothing")
        return "it left no output"

    def forget(self, tasks: Sequence[int]) -> None:
        """Removes what tasks said, and the folder if it is empty then."""
        for task in tasks:
            with contextlib.suppress(OSError):
                os.remove(self.log(task))
        with contextlib.suppress(OSError):
            os.rmdir(self.logs)


def call(*words: str) -> subprocess.CompletedProcess[str]:
    """Runs a command of Slurm, which an interrupt of the terminal does not reach."""
    return subprocess.run(
        words, stdin=subprocess.DEVNULL, stdout=subprocess.PIPE, stderr=subprocess.PIPE, text=True, errors="replace", start_new_session=True)


@contextlib.contextmanager
def uninterrupted() -> Iterator[None]:
    """Lets no second interrupt leave a job in the queue."""
    numbers = (signal.SIGINT, signal.SIGTERM, signal.SIGHUP)
    before = [signal.signal(it, signal.SIG_IGN) for it in numbers]
    try:
        yield
    finally:
        for it, handler in zip(numbers, before):
            signal.signal(it, handler)


def one_line(text: str) -> str:
    """A message in one line."""
    return " ".join(text.split()) or "no message"


def task_line(given: argparse.Namespace, program: str, count: int) -> str:
    """The line of sh that a task runs. It names the program, or each task would look for one."""
    words = [sys.executable, os.path.abspath(sys.argv[0])]
    for option in ("manifest", "lab"):
        if getattr(given, option) is not None:
            words += ["--" + option, os.path.abspath(getattr(given, option))]
    words += [] if given.folder is None else [os.path.abspath(given.folder)]
    words += ["--out", os.path.abspath(given.out), "--dialect", given.dialect, *(["--no-site"] if given.no_site else [])]
    jobs = '-j "${SLURM_CPUS_PER_TASK:-1}" --share "$SLURM_ARRAY_TASK_ID/%d"' % count
    return "PLAN_JUDGE=%s exec %s %s" % (shlex.quote(program), shlex.join(words), jobs)


def submit(given: argparse.Namespace, program: str, tasks: Tasks) -> Job:
    """Puts the job into the queue."""
    missing = [it for it in COMMANDS if shutil.which(it) is None]
    if missing:
        raise Wrong("there is no program %s, and --slurm needs it" % missing[0])
    try:
        own = shlex.split(given.slurm)
    except ValueError as error:
        raise Wrong("the options of --slurm cannot be read: %s" % error) from error
    logs = os.path.join(os.path.abspath(given.out), LOGS)
    shutil.rmtree(logs, ignore_errors=True)
    os.makedirs(logs)
    array = ",".join(map(str, tasks.shares()))
    words = ["sbatch", "--job-name=tournament", *own, "--parsable", "--array=" + array, "--output=%s/%%A-%%a.txt" % logs.replace("%", "%%")]
    words.append("--wrap=" + task_line(given, program, tasks.count))
    process = subprocess.Popen(
        words, stdin=subprocess.DEVNULL, stdout=subprocess.PIPE, stderr=subprocess.PIPE, text=True, errors="replace", start_new_session=True)
    try:
        out, said = process.communicate()
    except KeyboardInterrupt:
        with uninterrupted():
            out, said = process.communicate()  # sbatch ends soon, and says whether there is a job to cancel
            if process.returncode == 0:
                call("scancel", out.strip().split(";")[0])
        raise
    if process.returncode or not out.strip():
        with contextlib.suppress(OSError):
            os.rmdir(logs)
        raise Wrong("sbatch takes no job: %s" % one_line(said))
    return Job(out.strip().split(";")[0], logs)


def wait(job: Job, tasks: Tasks, tick: Callable[[int], object], tell: Tell) -> None:
    """Waits until all tasks have ended, or all problems have a new report. TICK gets the number of problems that were judged since the last time."""
    begun, since, told, before = time.monotonic(), 0.0, False, len(tasks.left)
    while True:
        unfinished, left = job.unfinished(), len(tasks.waiting())
        tick(before - left)
        before, now = left, time.monotonic()
        if unfinished == []:
            tick(before - len(tasks.waiting()))
            return
        since = since or (now if not left else 0.0)
        if since and now - since > GRACE:
            job.cancel(tell)
            return
        if not told and now - begun > PATIENCE and (unfinished is None or all(it[0] == "PENDING" for it in unfinished)):
            told = True
            tell("job %s has not begun: %s" % (job.number, unfinished[0][-1] if unfinished else "Slurm does not answer"))
        time.sleep(min(max(SHORTEST, (now - begun) / 10), LONGEST))


def judge_there(given: argparse.Namespace, program: str, tasks: Tasks, tick: Callable[[int], object], tell: Tell) -> None:
    """Submits the job, waits for its end, and says what the tasks leave and why. An interrupt cancels it."""
    shares, problems = tasks.shares(), len(tasks.left)
    job = submit(given, program, tasks)
    tell("job %s judges %d problem%s in %d task%s" % (job.number, problems, "s" * (problems > 1), len(shares), "s" * (len(shares) > 1)))
    try:
        wait(job, tasks, tick, tell)
    except KeyboardInterrupt:
        with uninterrupted():
            job.cancel(tell)
            job.forget(shares)
        raise KeyboardInterrupt("job %s is cancelled" % job.number) from None
    except BaseException:
        job.cancel(tell)
        raise
    failed: Dict[str, List[int]] = {}
    for task in tasks.shares():
        failed.setdefault(job.said(task), []).append(task)
    for why, which in list(failed.items())[:MOST_REASONS]:
        others = " and %d more" % (len(which) - 1) if len(which) > 1 else ""
        tell("task %d%s of job %s failed: %s" % (which[0], others, job.number, why))
    if failed:
        tell("%d problem%s left, judged here; what tasks said is in %s" % (len(tasks.left), "s" * (len(tasks.left) > 1), job.logs))
    job.forget([it for it in shares if it not in tasks.shares()])
