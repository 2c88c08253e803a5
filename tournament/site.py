"""The site: static pages that open from disk, with nothing that is fetched from elsewhere."""
from __future__ import annotations

import argparse
import concurrent.futures
import contextlib
import itertools
import multiprocessing
import os
import shutil
import signal
from typing import Any, Callable, ContextManager, Dict, Iterable, List, Optional, Tuple, TypeVar, Union

import jinja2
import markupsafe

from plan_judge import Valid

from . import plots
from .entries import Entry
from .exact import Number, cost_text, rounded
from .found import Judged
from .last import PAGES, RESULTS, Last, files_below
from .names import file_name, shown
from .plans import Plan
from .scores import Result, Tournament, says_other_cost
from .store import fingerprint, write

Pair = Tuple[str, str]
Progress = Callable[[str, int, str], ContextManager[Callable[..., object]]]
Of = TypeVar("Of", Result, Plan)

MOST_PAIRED = 12  # planners of which each pair is drawn
HERE = os.path.dirname(os.path.realpath(__file__))
MARKS = {"solved": "\u2713", "failed": "\u2717", "no plan": "\u2013", "refused": "!", "not scored": "\u25cb"}


def planner_page(planner: str) -> str:
    """Where the page of a planner is, from the site's top folder."""
    return "planners/%s.html" % file_name(planner)


def domain_page(domain: str) -> str:
    """Where the page of a domain is."""
    return "domains/%s.html" % file_name(domain)


def problem_page(entry: Union[Entry, Result]) -> str:
    """Where the page of a problem is; entry is an Entry or a Result."""
    return "problems/%s/%s.html" % (file_name(entry.domain), file_name(entry.problem))


def problem_plot(entry: Entry) -> str:
    """Where the plot of a problem is, if it has one."""
    return "plots/problems/%s/%s.svg" % (file_name(entry.domain), file_name(entry.problem))


def pair_page(pair: Pair) -> str:
    """Where the page of two planners is."""
    return "compare/%s+%s.html" % tuple(map(file_name, pair))


def report_line(result: Result, line: int) -> str:
    """A link to a line of the report that a result rests on, or to the problem's page."""
    return problem_page(result) + ("#L%d" % line if line else "")


def mark(status: str) -> str:
    """The sign of a status."""
    return MARKS[status.split(":")[0]]


def size_text(steps: int, cost: Optional[Number], counts_costs: bool) -> str:
    """What a valid plan costs and how long it is, in words."""
    length = "%d step%s" % (steps, "" if steps == 1 else "s")
    if not counts_costs:
        return length
    return "%s in %s" % ("undefined cost" if cost is None else "cost " + cost_text(cost), length)


def value_text(result: Result) -> str:
    """What a result is worth: its cost or its steps, or why it has none."""
    if not result.solved:
        return result.status.split(":")[0]
    return "undefined" if result.value is None else cost_text(result.value)


def point_name(one: Result, other: Result) -> str:
    """The name of a problem's point in the plot of two planners."""
    values = ["%s %s" % (shown(it.planner), value_text(it)) for it in (one, other)]
    return "%s %s: %s" % (shown(one.domain), shown(one.problem), ", ".join(values))


def same(path: str, data: bytes) -> bool:
    """Whether a file has this content."""
    with contextlib.suppress(OSError):
        with open(path, "rb") as file:
            return file.read() == data
    return False


class Site:
    """Writes the pages into a folder. Pages that are as they were in the old folder are taken over from there."""

    def __init__(self, tournament: Tournament, title: str, pairs: List[Pair], folder: str, last: Last) -> None:
        self.tournament, self.title, self.folder, self.last = tournament, shown(title), folder, last
        self.standings = tournament.standings()
        self.ranked = [planner for _, planner, _ in self.standings]
        self.columns = {planner: at for at, planner in enumerate(tournament.planners)}  # of a row of results
        self.keys: Dict[str, str] = {}
        self.chosen = bool(pairs)  # whether the pairs were named
        self.pairs = pairs or self.all_pairs()
        self.templates = jinja2.Environment(
            loader=jinja2.FileSystemLoader(os.path.join(HERE, "templates")), autoescape=True, undefined=jinja2.StrictUndefined,
            trim_blocks=True, lstrip_blocks=True)
        self.templates.globals.update(
            shown=shown, planner_page=planner_page, domain_page=domain_page, problem_page=problem_page, pair_page=pair_page,
            report_line=report_line, value_text=value_text, size_text=size_text, cost_text=cost_text, mark=mark, score=lambda it: rounded(it, 2),
            file_name=file_name, base_name=os.path.basename, site=self, tournament=tournament)

    def put(self, path: str, data: bytes) -> None:
        """Writes a file, or takes over the old one if it is the same."""
        if same(os.path.join(self.last.folder, path), data):
            self.take_over(path)
        else:
            write(os.path.join(self.folder, path), data)

    def take_over(self, path: str) -> None:
        """Takes over a file of the old folder, with its time. Two pages may show the same plot."""
        new = os.path.join(self.folder, path)
        if os.path.exists(new):
            return
        os.makedirs(os.path.dirname(new), exist_ok=True)
        try:
            os.link(os.path.join(self.last.folder, path), new)
        except OSError:  # not all file systems have links
            shutil.copy2(os.path.join(self.last.folder, path), new)

    def all_pairs(self) -> List[Pair]:
        """The planners that are drawn against each other: all pairs, or the first against each other one if there are many."""
        if len(self.ranked) <= MOST_PAIRED:
            return list(itertools.combinations(self.ranked, 2))
        return [(self.ranked[0], it) for it in self.ranked[1:]]

    def page(self, path: str, template: str, **values: object) -> None:
        """Writes a page."""
        root = "../" * path.count("/")
        text = self.templates.get_template(template).render(root=root, **values)
        self.put(path, text.replace(plots.ROOT, root).encode())

    def plot(self, path: str, text: str) -> Dict[str, str]:
        """Writes a plot as a file, and returns what a page shows of it."""
        self.put(path, plots.alone(text, "../" * path.count("/")).encode())
        return {"svg": markupsafe.Markup(text), "file": path}

    def index(self) -> None:
        """The page of the standings."""
        tournament = self.tournament
        domains = [(domain, [tournament.total(planner, domain).coverage for planner in self.ranked]) for domain in tournament.domains()]
        score = plots.score_plot(self.standings, lambda planner: plots.ROOT + planner_page(planner))
        coverage = plots.coverage_plot(
            domains, self.ranked, lambda domain, planner: plots.ROOT + domain_page(domain) + "#" + file_name(planner))
        drawn: Dict[str, object] = {"score": self.plot("plots/score.svg", score), "coverage": self.plot("plots/coverage.svg", coverage)}
        drawn.update(bars=plots.MOST_BARS, lines=plots.MOST_SERIES)
        if self.pairs:
            drawn["scatter"] = self.scatter(self.pairs[0])
        highest = {domain: max(tournament.total(planner, domain).score for planner in self.ranked) for domain in tournament.domains()}
        self.page("index.html", "index.html", plots=drawn, highest=highest, many=len(self.ranked) > MOST_PAIRED)

    def scatter(self, pair: Pair) -> Dict[str, str]:
        """The plot of two planners."""
        points = [(one.value, other.value, plots.ROOT + problem_page(one), point_name(one, other))
                  for one, other in self.met(pair) if one.solved or other.solved]
        path = "plots/compare/%s+%s.svg" % tuple(map(file_name, pair))
        return self.plot(path, plots.scatter_plot(*pair, points, "scatter"))

    def met(self, pair: Pair) -> List[Tuple[Result, Result]]:
        """The results of two planners, problem by problem."""
        one, other = (self.columns[it] for it in pair)
        return [(row[one], row[other]) for row in self.tournament.rows]

    def wins(self, one: str, other: str) -> int:
        """On how many problems the first planner has the higher score."""
        return sum(a.score > b.score for a, b in self.met((one, other)))

    def pair(self, pair: Pair) -> None:
        """The page of two planners."""
        self.page(pair_page(pair), "pair.html", pair=pair, met=self.met(pair), plot=self.scatter(pair))

    def planner(self, planner: str) -> None:
        """The page of a planner."""
        total = self.tournament.total(planner)
        rank = next(rank for rank, name, _ in self.standings if name == planner)
        self.page(planner_page(planner), "planner.html", planner=planner, total=total, rank=rank)

    def domain(self, domain: str) -> None:
        """The page of a domain."""
        self.page(domain_page(domain), "domain.html", domain=domain, problems=self.tournament.problems(domain))

    def problem_keys(self) -> Dict[str, str]:
        """For each problem's page a fingerprint of what it is made from."""
        common, keys = [self.last.code, self.title, *self.ranked], dict[str, str]()
        for found in self.tournament.found:
            reference = self.tournament.references.get((shown(found.entry.domain), shown(found.entry.problem)))
            keys[problem_page(found.entry)] = fingerprint([*common, found.mark, repr((reference, found.kept, found.entry.passed))])
        return keys

    def problem(self, at: int) -> None:
        """The page of a problem, which is taken over if it was made from the same before and nobody has changed it since."""
        entry, record = self.tournament.found[at].entry, self.last.record
        page = problem_page(entry)
        files = {it: record["files"][it] for it in (page, problem_plot(entry)) if it in record.get("files", {})}
        if record.get("problems", {}).get(page) == self.keys[page] and files_below(self.last.folder, files) == files:
            for path in files:
                self.take_over(path)
        else:
            self.new_problem(at)

    def new_problem(self, at: int) -> None:
        """Makes the page of a problem."""
        found, row = self.tournament.found[at], self.by_rank(self.tournament.rows[at])
        failing = self.by_rank(found.first_failing())
        explained = [(it, found.explained[file_name(it.planner)]) for it in failing if file_name(it.planner) in found.explained]
        plans = [plan_cells(found, plan, any(plan is it for it, _ in explained)) for plan in self.by_rank(found.plans)]
        passed = [(planner, *it) for planner in self.ranked for it in found.entry.passed.get(planner, [])]
        lines = self.progress_lines(found)
        plot = None
        if lines and found.report:
            unit = "cost" if found.report.counts_costs else "number of steps"
            plot = self.plot(problem_plot(found.entry), plots.progress_plot(lines, unit, "progress"))
        holder = next((it for it in row if it.solved and it.value is not None and it.value == it.reference), None)
        self.page(problem_page(found.entry), "problem.html", found=found, row=row, plans=plans, passed=passed, explained=explained, plot=plot,
                  holder=holder, shown_lines=len(lines), most=plots.MOST_SERIES)

    def by_rank(self, items: Iterable[Of]) -> List[Of]:
        """Results or plans in the order of the standings."""
        places = {planner: at for at, planner in enumerate(self.ranked)}
        return sorted(items, key=lambda it: places[it.planner])

    def progress_lines(self, found: Judged) -> List[plots.Progress]:
        """For each planner with valid plans, the least cost up to each of them, if some planner has two plans and they are scored."""
        if found.report is None or found.unscored:
            return []
        lines: List[plots.Progress] = []
        for planner in self.ranked:
            pairs: List[Tuple[int, Number]] = []
            links: List[str] = []
            for number, plan in enumerate((it for it in found.plans if it.planner == planner), 1):
                line = found.line(plan)
                if not line or not isinstance(line.verdict, Valid):
                    continue
                value = line.verdict.cost if found.report.counts_costs else line.verdict.steps
                if value is not None:
                    pairs.append((number, min(value, pairs[-1][1]) if pairs else value))
                    links.append(plots.ROOT + problem_page(found.entry) + "#L%d" % line.number)
            if pairs:
                lines.append((planner, pairs, links))
        return lines if any(pairs[-1][0] > 1 for _, pairs, _ in lines) else []


def plan_cells(found: Judged, plan: Plan, explained: bool) -> Dict[str, object]:
    """What the problem's page shows of a plan, which may be explained there."""
    line = found.line(plan)
    differs = False
    if line and found.report and isinstance(line.verdict, Valid):
        differs = says_other_cost(plan, line.verdict, found.report.counts_costs)
    return {"plan": plan, "line": line and line.number, "verdict": line and line.verdict, "differs": differs, "explained": explained}


class Forked:
    """The site of the processes that are forked to write its pages."""
    site: Site


def write_part(work: Tuple[str, Any]) -> None:
    """Writes one page, in a process that was forked with the site."""
    kind, what = work
    getattr(Forked.site, kind)(what)


def ignore_interrupts() -> None:
    """Leaves interrupts to the process that waits for this one."""
    signal.signal(signal.SIGINT, signal.SIG_IGN)
    signal.signal(signal.SIGTERM, signal.SIG_DFL)


def write_site(
    tournament: Tournament, given: argparse.Namespace, results: Dict[str, bytes], last: Last, progress: Progress
) -> Dict[str, str]:
    """Writes all pages and the files of results beside the old ones, and then puts them in their place.

    Returns a fingerprint of what each problem's page is made from.
    """
    new = os.path.join(given.out, ".new")
    shutil.rmtree(new, ignore_errors=True)
    # The processes are forked after this, so each has the site without a copy being sent.
    site = Forked.site = Site(tournament, given.title, [(one, other) for one, other in given.compare], new, last)
    site.keys = site.problem_keys()
    work: List[Tuple[str, Any]] = [("problem", at) for at in range(len(tournament.found))]
    work += [("pair", it) for it in site.pairs]
    work += [("planner", it) for it in tournament.planners] + [("domain", it) for it in tournament.domains()]
    fork = multiprocessing.get_context("fork")
    with progress("pages", len(work), "page") as tick, concurrent.futures.ProcessPoolExecutor(given.jobs, fork, ignore_interrupts) as pool:
        for _ in pool.map(write_part, work, chunksize=4):
            tick()
    site.index()
    for name, data in results.items():
        site.put(name, data)
    site.page("style.css", "style.css", light=plots.variables(plots.LIGHT), dark=plots.variables(plots.DARK))
    last.forget()
    put_in_place(new, given.out)
    return site.keys


def put_in_place(new: str, folder: str) -> None:
    """Takes the new pages for the old ones."""
    old = os.path.join(folder, ".old")
    shutil.rmtree(old, ignore_errors=True)
    os.mkdir(old)
    for part in RESULTS + PAGES:
        if os.path.exists(os.path.join(folder, part)):
            os.rename(os.path.join(folder, part), os.path.join(old, part))
        if os.path.exists(os.path.join(new, part)):
            os.rename(os.path.join(new, part), os.path.join(folder, part))
    shutil.rmtree(old)
    shutil.rmtree(new)
