"""The command line of bin/tournament."""
from __future__ import annotations

import argparse
import contextlib
import fcntl
import os
import signal
import sys
from typing import Any, Callable, Dict, Iterator, List, NoReturn, Optional, Sequence, Set, Tuple

from . import packages, slurm
from .entries import ALL, Entry, References, Wrong, from_folder, from_manifest, references
from .exact import rounded
from .found import Judged
from .judging import Judge, Program, judge_all, recall_all
from .lab import from_lab
from .last import Last
from .names import shown
from .scores import Tournament
from .store import Store, write
from .tables import as_json, as_tsv

TASKS = 100  # of Slurm, unless the call says how many
MARK = ".tournament"  # the file by which a folder is known as a site of this program
HINT = "; bin/tournament --help says more"


def tell(line: str) -> None:
    """Writes a line to standard error, on a terminal in place of a progress bar that may be there."""
    print(("\r\033[K" if sys.stderr.isatty() else "") + "tournament: " + line, file=sys.stderr)


class Words(argparse.ArgumentParser):
    """The words of the command line."""

    def error(self, message: str) -> NoReturn:
        """Ends a wrong call with one line."""
        tell(message + HINT)
        sys.exit(2)


class Once(argparse.Action):
    """An option that may be given once only."""
    is_given = False

    def __call__(self, parser: argparse.ArgumentParser, given: argparse.Namespace, value: Any, spelling: Optional[str] = None) -> None:
        if self.is_given and spelling:
            parser.error(spelling + " is given twice")
        self.is_given = True
        setattr(given, self.dest, True if self.nargs == 0 else value)


def number_of_jobs(text: str) -> int:
    """A number of processes."""
    number = int(text)
    if not 1 <= number <= 1024:
        raise ValueError
    return number


def number_of_tasks(text: str) -> int:
    """A number of tasks."""
    number = int(text)
    if not 1 <= number <= 100000:
        raise ValueError
    return number


def share_of(text: str) -> Tuple[int, int]:
    """A share K/N."""
    which, count = (int(it) for it in text.split("/") if it.isascii() and it.isdecimal())
    if not 1 <= which <= count:
        raise ValueError
    return which, count


number_of_jobs.__name__ = number_of_tasks.__name__ = "number"  # as argparse names it in its messages
share_of.__name__ = "share"


def words_of(argv: List[str], text: str) -> argparse.Namespace:
    """The options of a call."""
    if any(it in ("-h", "--help") for it in argv):
        print(text, end="")
        sys.exit(0)
    parser = Words(add_help=False, allow_abbrev=False)
    parser.register("action", None, Once)
    parser.add_argument("folder", nargs="?")
    parser.add_argument("--manifest")
    parser.add_argument("--lab")
    parser.add_argument("--out")
    parser.add_argument("-j", "--jobs", type=number_of_jobs, default=len(os.sched_getaffinity(0)))
    parser.add_argument("--dialect", choices=["adl", "ipc", "strips"], default="adl")
    parser.add_argument("--reference")
    parser.add_argument("--compare", nargs=2, action="append", default=[])
    parser.add_argument("--title", default="Standings")
    parser.add_argument("--no-site", action=Once, nargs=0, default=False)
    parser.add_argument("--share", type=share_of)
    parser.add_argument("--slurm")
    parser.add_argument("--tasks", type=number_of_tasks)
    given = parser.parse_args(["--slurm=" if it == "--slurm" else it for it in argv])  # so that it does not take the next word
    if [given.folder, given.manifest, given.lab].count(None) != 2:
        parser.error("it takes either FOLDER, --manifest FILE.tsv or --lab FOLDER")
    if given.out is None:
        parser.error("--out SITE is missing")
    if given.share is not None and given.slurm is not None:
        parser.error("--share and --slurm exclude each other")
    if given.tasks is not None and given.slurm is None:
        parser.error("--tasks is for --slurm only")
    if given.folder is not None and is_below(given.out, given.folder):
        parser.error("SITE is in FOLDER, and would be read as an output of planners")
    return given


def is_below(path: str, folder: str) -> bool:
    """Whether a path is a folder or in it."""
    whole, top = os.path.realpath(path), os.path.realpath(folder)
    return os.path.commonpath([whole, top]) == top


def mark_site(path: str) -> str:
    """Makes the folder of the site, and returns the file that marks it. A folder with other content is left alone."""
    mark = os.path.join(path, MARK)
    if os.path.isdir(path) and os.listdir(path) and not os.path.exists(mark):
        raise Wrong("%s is not empty, and is no site of bin/tournament" % path)
    os.makedirs(path, exist_ok=True)
    with open(mark, "a"):
        return mark


@contextlib.contextmanager
def site_folder(path: str) -> Iterator[None]:
    """The folder of the site. Other calls are kept out of it, except those for a share, which only add reports."""
    with open(mark_site(path), "a") as file:
        try:
            fcntl.flock(file, fcntl.LOCK_EX | fcntl.LOCK_NB)
        except BlockingIOError as error:
            raise Wrong("another call writes %s" % path) from error
        yield


@contextlib.contextmanager
def progress(text: str, count: int, unit: str = "problem") -> Iterator[Callable[..., object]]:
    """A progress bar on a terminal, if the package is there: the function to call after each of so many pieces of work, or with their number."""
    if "tqdm" in packages.missing():
        yield lambda *_: None
        return
    from tqdm import tqdm
    with tqdm(total=count, desc=text, unit=" " + unit, disable=None, dynamic_ncols=True) as bar:
        yield bar.update


def entries_of(given: argparse.Namespace) -> List[Entry]:
    """What takes part, or the share of it that the call is for."""
    chosen = ALL if given.share is None else slurm.share(*given.share)
    if given.lab is not None:
        return from_lab(given.lab, chosen)
    return from_folder(given.folder, chosen) if given.folder is not None else from_manifest(given.manifest)[chosen]


class Count:
    """How many problems are judged."""
    value = 0

    def add(self, number: int = 1) -> None:
        """Counts more of them."""
        self.value += number


def judged(entries: List[Entry], given: argparse.Namespace) -> List[Judged]:
    """What plan_judge finds of the entries."""
    judge = Judge(Program(given.dialect), Store(os.path.join(given.out, "reports")), explains=not given.no_site)
    found: Dict[int, Judged] = {}
    count = Count()
    try:
        if given.slurm is not None:
            recall_all(judge, entries, found, lambda _: count.add())
            judge_elsewhere(judge, entries, given, [at for at in range(len(entries)) if at not in found], count)
            count.value = len(found)
        with progress("judging", len(entries)) as tick:
            tick(len(found))

            def judged_one(_: Judged) -> None:
                count.add()
                tick()

            return judge_all(judge, entries, given.jobs, found, judged_one)
    except KeyboardInterrupt as interrupt:
        raise KeyboardInterrupt(*interrupt.args, "%d of %d problems are judged" % (count.value, len(entries))) from None


def judge_elsewhere(judge: Judge, entries: List[Entry], given: argparse.Namespace, left: List[int], count: Count) -> None:
    """Has problems judged by Slurm, as far as they can be read here."""
    tasks = slurm.Tasks(judge.store, entries, [at for at in left if judge.is_readable(entries[at])], given.tasks or TASKS)
    if tasks.left:
        with progress("in tasks", len(tasks.left)) as tick:
            def judged_more(number: int) -> None:
                count.add(number)
                tick(number)

            slurm.judge_there(given, judge.program.path, tasks, judged_more, tell)


def judge_share(entries: List[Entry], given: argparse.Namespace) -> int:
    """Judges a share of the problems and keeps the reports. Returns the status."""
    which, count = given.share
    mark_site(given.out)
    found = judged(entries, given)
    failed = [it for it in found if not it.kept]
    line = "share %d/%d: %d of %d problems are judged" % (which, count, len(found) - len(failed), len(found))
    for it in failed[:1]:
        line += "; the first that failed is %s %s: %s" % (shown(it.entry.domain), shown(it.entry.problem), shown(it.refused or it.unexplained))
    tell(line)
    return 1 if failed else 0


def notes(tournament: Tournament, known: References) -> List[str]:
    """What the organiser should know, as lines of text."""
    lines = []
    for found in tournament.found:
        place = "%s %s" % (shown(found.entry.domain), shown(found.entry.problem))
        if found.refused:
            lines.append("%s is refused: %s" % (place, shown(found.refused)))
        if found.unscored:
            lines.append("%s is not scored: %s" % (place, found.unscored))
        if found.unexplained:
            lines.append("%s cannot be explained: %s" % (place, found.unexplained))
        lines += ["%s, %s: %s" % (place, shown(it.planner), it.unread) for it in found.plans if it.unread]
    lines += [it for planner in tournament.planners for it in planners_notes(tournament, planner)]
    problems = {(shown(it.entry.domain), shown(it.entry.problem)) for it in tournament.found}
    strange = [it for it in known if it not in problems]
    if strange:
        lines.append("%d of %d references are for problems that are not here, as %s" % (len(strange), len(known), " ".join(strange[0])))
    return lines


def planners_notes(tournament: Tournament, planner: str) -> Iterator[str]:
    """What the organiser should know of a planner: what is passed over, in one line however much that is, and whether it has no plan."""
    passed = [it for found in tournament.found for it in found.entry.passed.get(planner, [])]
    if passed:
        (path, why), count = passed[0], len(passed)
        front = "%s is passed over" % shown(path) if count == 1 else "%d files or folders are passed over, first %s" % (count, shown(path))
        yield "%s: %s: %s" % (shown(planner), front, why)
    if not tournament.total(planner).plans:
        other = next((it.entry.others[planner] for it in tournament.found if planner in it.entry.others), None)
        hint = "; files such as %s do not look like plans" % shown(other) if other else ""
        yield "%s has no plan at all%s" % (shown(planner), hint)


def standings_text(tournament: Tournament) -> str:
    """The standings as a small table."""
    lines = [["rank", "planner", "coverage", "score", "valid", "failed"]]
    for rank, planner, total in tournament.standings():
        lines.append([str(rank), shown(planner), str(total.coverage), rounded(total.score, 2), str(total.valid), str(total.failed)])
    widths = [max(len(line[at]) for line in lines) for at in range(6)]
    padded = [[cell.ljust(width) if at == 1 else cell.rjust(width) for at, (cell, width) in enumerate(zip(line, widths))] for line in lines]
    return "".join("  ".join(line) + "\n" for line in padded)


def run(given: argparse.Namespace) -> int:
    """Judges, and writes the results and the site. Returns the status."""
    entries = entries_of(given)
    if given.share is not None:
        return judge_share(entries, given)
    known = references(given.reference) if given.reference is not None else {}
    planners = {it for entry in entries for it in entry.plans}
    if not planners:
        raise Wrong("no problem has a folder of a planner")
    check_pairs(given.compare, planners)
    with site_folder(given.out):
        found = judged(entries, given)
        last, sound = Last(given, found, known), all(it.kept for it in found)
        said = last.record["said"] if sound and last.unchanged() else write_all(found, known, given, last)
    for line in said["notes"]:
        tell(line)
    sys.stdout.write(said["standings"])
    print(os.path.join(given.out, "results.tsv" if given.no_site else "index.html"))
    return 0 if sound else 1


def write_all(found: List[Judged], known: References, given: argparse.Namespace, last: Last) -> Dict[str, Any]:
    """Writes the results and, unless only these are wanted, the site. Returns what there is to say."""
    tournament = Tournament(found, known, given.dialect)
    results = {"results.tsv": as_tsv(tournament).encode(), "results.json": as_json(tournament).encode()}
    problems: Dict[str, str] = {}
    if given.no_site:
        last.forget()
        for name, data in results.items():
            write(os.path.join(given.out, name), data)
    else:
        from .site import write_site
        problems = write_site(tournament, given, results, last, progress)
    said = {"notes": notes(tournament, known), "standings": standings_text(tournament)}
    if all(it.kept for it in found):
        last.keep(said, problems)
    return said


def check_pairs(pairs: List[List[str]], planners: Set[str]) -> None:
    """Ends the call if --compare names a planner that is not there."""
    for planner in (it for pair in pairs for it in pair):
        if planner not in planners:
            raise Wrong("--compare names %s; the planners are %s" % (shown(planner), ", ".join(map(shown, sorted(planners)))))


def use_packages(argv: Sequence[str]) -> bool:
    """Goes on with a Python that has all packages, or says which are missing and returns False."""
    python = packages.python_with_packages()
    if python is None:
        tell("missing Python packages: %s; %s" % (", ".join(packages.missing()), packages.INSTALL))
        return False
    if python != sys.executable:
        os.execv(python, [python, sys.argv[0], *argv])
    return True


def main(argv: List[str], text: str) -> int:
    """Runs a call of bin/tournament, and returns its status."""
    given = words_of(argv, text)
    if not given.no_site and given.share is None and not use_packages(argv):
        return 1
    signal.signal(signal.SIGTERM, signal.default_int_handler)
    if signal.getsignal(signal.SIGHUP) == signal.SIG_DFL:  # which nohup ignores
        signal.signal(signal.SIGHUP, signal.default_int_handler)
    try:
        return run(given)
    except Wrong as wrong:
        tell(str(wrong))
    except OSError as error:
        tell("%s: %s" % (error.filename or "cannot write", error.strerror))
    except KeyboardInterrupt as interrupt:
        tell("interrupted: %s" % "; ".join([*interrupt.args, "the reports are kept, and the same call goes on from there"]))
        return 130
    return 1
