"""Judges the plans of each problem with one call of plan_judge, several problems at a time."""
from __future__ import annotations

import concurrent.futures
import dataclasses
import os
import subprocess
import sys
from typing import Callable, Dict, List, Optional, Union

import plan_judge
from plan_judge import CallFailed, Dialect, Named, ProgramMissing, Refused, Stopper

from .entries import Entry, Wrong
from .found import Judged, Reports
from .metric import why_unscored
from .names import file_name
from .plans import Bundle, Plan, PlanFile, Unread, batches, bundled, plan_files, read_file
from .store import Answer, Store, fingerprint

FORMAT = "3"  # changes when kept reports of an earlier version can no longer be used
STAND_IN = "/dev/null"  # an empty plan: it shows whether a problem without any plan is accepted
MOST_LINES, MOST_LETTERS = 60, 300  # of an explanation, and of each of its lines
FAILURES = (CallFailed, ProgramMissing, ValueError)  # of a call; the last if it cannot be made here, as the input is within all limits


class Input:
    """What a problem is judged from: the texts of the domain and the problem, or why these cannot be read, and the plan files."""

    def __init__(self, entry: Entry, program_mark: str) -> None:
        self.files: List[PlanFile] = plan_files(entry.plans)
        self.texts: List[bytes] = []
        self.unread = ""
        try:
            self.texts = [read_file(entry.domain_file, "domain.pddl"), read_file(entry.problem_file, "problem.pddl")]
        except Unread as unread:
            self.unread = str(unread)
        pieces: List[Union[str, bytes]] = [program_mark, self.unread, *self.texts]
        for file in self.files:
            pieces += [repr((file.planner, file.name, file.unread)), file.text]
        self.mark = fingerprint(pieces)


class Program:
    """The program that judges, and its calls, which `stop` ends."""

    def __init__(self, dialect: Dialect) -> None:
        self.path = find_program()
        self.dialect: Dialect = dialect
        self.stopper = Stopper()
        with open(self.path, "rb") as file:
            self.mark = fingerprint([FORMAT, dialect, file.read()])

    def judge(self, texts: List[bytes], plans: Dict[str, bytes]) -> plan_judge.Report:
        """The report on the plans of planners."""
        domain, problem = texts
        return plan_judge.judge(domain, problem, plans, dialect=self.dialect, workers=1, program=self.path, stopper=self.stopper)

    def explain(self, texts: List[bytes], plans: List[Named]) -> str:
        """What explain says."""
        domain, problem = Named("domain.pddl", texts[0]), Named("problem.pddl", texts[1])
        return plan_judge.explain(domain, problem, plans, dialect=self.dialect, program=self.path, stopper=self.stopper).text


def find_program() -> str:
    """The program: PLAN_JUDGE of the environment, or plan_judge beside the script; for bin/plan_judge of a repository the program that it runs."""
    here = os.path.dirname(os.path.dirname(os.path.realpath(__file__)))
    wrapper, script = os.path.join(here, "bin", "plan_judge"), os.path.abspath(sys.argv[0])
    beside = [os.path.join(os.path.dirname(it), "plan_judge") for it in (script, os.path.realpath(script))]
    own = None if os.environ.get("PLAN_JUDGE") else next((it for it in beside if os.path.exists(it)), None)
    try:
        path = plan_judge.find_program(own)
        runs = subprocess.run([path, "--version"], stdin=subprocess.DEVNULL, stdout=subprocess.DEVNULL).returncode == 0
    except ProgramMissing as missing:
        raise Wrong(str(missing)) from missing
    except OSError:
        runs = False
    if not runs:
        raise Wrong("%s cannot be run" % path)
    if os.path.realpath(path) != os.path.realpath(wrapper):
        return os.path.abspath(path)
    return subprocess.run([os.path.join(here, "bin", "program")], stdin=subprocess.DEVNULL, stdout=subprocess.PIPE, text=True).stdout.strip()


class Judge:
    """Judges problems, and keeps the reports. Several threads may call it."""

    def __init__(self, program: Program, store: Store, explains: bool = False) -> None:
        self.program, self.store, self.explains = program, store, explains

    def recall(self, entry: Entry) -> Optional[Judged]:
        """What is found of a problem whose answer is kept, or None if it has to be judged."""
        if not self.store.has(entry):
            return None
        mark = Input(entry, self.program.mark).mark
        answer = self.store.kept(entry, mark)
        if answer is None or self.explains and answer.explained is None:
            return None
        return self.judged(entry, [Plan(*it) for it in answer.plans], mark, answer)

    def judge(self, entry: Entry) -> Judged:
        """What is found of one problem: from the answer that is kept, or from a call of plan_judge."""
        given = Input(entry, self.program.mark)
        plans, bundles = bundled(given.files)
        if given.unread:
            return Judged(entry, plans, refused=given.unread, mark=given.mark)
        kept = self.store.kept(entry, given.mark)
        answer = kept or self.ask(given.texts, plans, bundles)
        found = self.judged(entry, plans, given.mark, answer)
        sound, asks = found.kept, self.explains and found.kept and answer.explained is None
        if asks:
            self.explain(found, answer, given.texts, bundles)
        if sound and (asks or not kept):
            self.store.keep(entry, given.mark, answer)
        found.explained = answer.explained or {}
        return found

    def judged(self, entry: Entry, plans: List[Plan], mark: str, answer: Answer) -> Judged:
        """What an answer says of a problem."""
        refused = answer.refused or answer.trouble
        return Judged(
            entry, plans, None if refused else answer.reports, refused, mark, answer.unscored, answer.explained or {}, kept=not answer.trouble)

    def ask(self, texts: List[bytes], plans: List[Plan], bundles: List[Bundle]) -> Answer:
        """Calls plan_judge, and returns its answer."""
        answer = Answer(plans=list(map(dataclasses.astuple, plans)), unscored=why_unscored(texts[1]))
        groups = [{it.name: it.content() for it in group} for group in batches(bundles)]
        try:
            answer.reports = Reports([self.program.judge(texts, it) for it in groups or [{STAND_IN: b""}]])
        except Refused as refused:
            return dataclasses.replace(answer, refused=printable(str(refused)), unscored="")
        except FAILURES as failed:
            return dataclasses.replace(answer, trouble=printable(" ".join(str(failed).split())), unscored="")
        return answer

    def explain(self, found: Judged, answer: Answer, texts: List[bytes], bundles: List[Bundle]) -> None:
        """Adds to an answer what explain says of the refused input, or of each planner's first plan that is not valid."""
        contents = {(it.name, number): text for it in bundles for number, text in enumerate(it.texts, 1)}
        explained = {"": self.explanation(found, texts, [])} if found.refused else {}
        for plan in found.first_failing():
            name = file_name("plan-%d-of-%s" % (plan.part, plan.file) if plan.part else plan.file)
            explained[file_name(plan.planner)] = self.explanation(found, texts, [Named(name, contents[plan.bundle, plan.number])])
        if found.kept:
            answer.explained = explained

    def explanation(self, found: Judged, texts: List[bytes], plans: List[Named]) -> str:
        """What explain says in a call, without what is too much for a page."""
        try:
            lines = printable(self.program.explain(texts, plans)).splitlines()
        except FAILURES as failed:
            found.unexplained, found.kept = printable(" ".join(str(failed).split())), False
            return ""
        kept = [it if len(it) <= MOST_LETTERS else it[:MOST_LETTERS] + ".." for it in lines[:MOST_LINES]]
        return "\n".join(kept + [".."] * (len(lines) > MOST_LINES))

    def is_readable(self, entry: Entry) -> bool:
        """Whether the domain and the problem can be read."""
        try:
            read_file(entry.domain_file, "")
            read_file(entry.problem_file, "")
        except Unread:
            return False
        return True

    def stop(self) -> None:
        """Ends all calls, and lets no other begin."""
        self.program.stopper.stop()


def printable(text: str) -> str:
    """A text of the program in which bytes that are no UTF-8 are replaced."""
    return text.encode("utf-8", "surrogateescape").decode("utf-8", "replace")


def recall_all(judge: Judge, entries: List[Entry], found: Dict[int, Judged], tick: Callable[[Judged], object]) -> None:
    """Adds to what is found, by the numbers of entries, all answers that are kept. One by one, since threads would only wait for each other."""
    for at, entry in enumerate(entries):
        recalled = None if at in found else judge.recall(entry)
        if recalled:
            found[at] = recalled
            tick(recalled)


def judge_all(judge: Judge, entries: List[Entry], jobs: int, found: Dict[int, Judged], tick: Callable[[Judged], object]) -> List[Judged]:
    """What is found of all entries, in their order, if some are found already. Problems whose answers are not kept are judged side by side.

    The function tick is called after each that was not found. An interrupt ends the calls that run.
    """
    recall_all(judge, entries, found, tick)
    with concurrent.futures.ThreadPoolExecutor(jobs) as pool:
        waiting = {at: pool.submit(judge.judge, entry) for at, entry in enumerate(entries) if at not in found}
        try:
            for done in concurrent.futures.as_completed(waiting.values()):
                tick(done.result())
        except BaseException:
            judge.stop()
            for it in waiting.values():
                it.cancel()
            raise
    return [found[at] if at in found else waiting[at].result() for at in range(len(entries))]
