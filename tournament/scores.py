"""Results of planners on problems, and the standings, in exact numbers."""
from __future__ import annotations

import collections
import dataclasses
import functools
from fractions import Fraction
from typing import Dict, List, NamedTuple, Optional, Sequence, Tuple

from plan_judge import Valid

from .entries import References
from .exact import Number, read_cost, satisficing
from .found import Judged
from .names import numeric_order, shown
from .plans import Plan

NOT_SCORED = "not scored: "  # begins the status of a result on a problem whose metric is another one


@dataclasses.dataclass
class Result:
    """What a planner reached on a problem. None is for a number that there is not."""
    domain: str
    problem: str
    planner: str
    plans: int
    status: str
    valid: Optional[int] = None
    judged: int = 0
    best_steps: Optional[int] = None
    best_cost: Optional[Fraction] = None
    reference: Optional[Fraction] = None
    score: Fraction = Fraction(0)
    counts_costs: bool = False
    best: Optional[Plan] = None  # the plan that counts
    best_plan_steps: Optional[int] = None  # how many steps it has
    other_costs: int = 0  # valid plans that cost something else than the planner says
    best_line: int = 0  # the line of its verdict in the report
    summary_line: int = 0  # the line of the report with the numbers of plans

    @property
    def solved(self) -> bool:
        """Whether the planner has a valid plan, on a problem that is scored."""
        return self.status == "solved"

    @property
    def scored(self) -> bool:
        """Whether there is a score. A refused problem has the score 0."""
        return not self.status.startswith(NOT_SCORED)

    @property
    def failed(self) -> int:
        """How many plans were judged and are not valid."""
        return self.judged - (self.valid or 0)

    @property
    def value(self) -> Optional[Number]:
        """What the score rests on: the cost where costs count, else the steps."""
        return self.best_cost if self.counts_costs else self.best_steps


def results_of(found: Judged, planners: Sequence[str], references: References) -> List[Result]:
    """The results of all planners on one problem."""
    entry = found.entry
    plans: Dict[str, List[Plan]] = collections.defaultdict(list)
    for plan in found.plans:
        plans[plan.planner].append(plan)
    results = [result_of(found, planner, plans[planner]) for planner in planners]
    if found.report is not None and not found.unscored:
        costs = [it.value for it in results if it.value is not None]
        given = references.get((shown(entry.domain), shown(entry.problem)))
        reference = min([*costs, *([given] if given is not None else [])], default=None)
        for result in results:
            result.reference = None if reference is None else Fraction(reference)
            result.score = satisficing(reference, result.value)
    return results


class ValidPlan(NamedTuple):
    """A plan that is valid, and the line of the report that says so."""
    plan: Plan
    line: int
    verdict: Valid


def result_of(found: Judged, planner: str, plans: List[Plan]) -> Result:
    """The result of one planner with these plans on one problem, without its score."""
    entry = found.entry
    result = Result(entry.domain, entry.problem, planner, len(plans), "no plan", 0)
    if found.report is None:
        result.status, result.valid = "refused: " + found.refused, None
        return result
    report = found.report
    result.counts_costs = report.counts_costs
    judged = [it for it in plans if not it.unread]
    lines = [report.verdicts[it.bundle, it.number] for it in judged]
    valid = [ValidPlan(plan, it.number, it.verdict) for plan, it in zip(judged, lines) if isinstance(it.verdict, Valid)]
    result.judged, result.valid = len(judged), len(valid)
    result.other_costs = sum(says_other_cost(it.plan, it.verdict, report.counts_costs) for it in valid)
    if judged:
        result.summary_line = report.summaries[judged[0].bundle]
    if valid:
        result.status = "solved"
        take_best(result, valid)
    elif len(judged) < len(plans):
        result.status = "refused: " + next(it.unread for it in plans if it.unread)
    elif plans:
        result.status = "failed"
    if found.unscored:
        result.status = NOT_SCORED + found.unscored
    return result


def says_other_cost(plan: Plan, verdict: Valid, counts_costs: bool) -> bool:
    """Whether the planner says another cost of a valid plan than it has, or another number of steps where costs do not count."""
    if not plan.own_cost:
        return False
    return read_cost(plan.own_cost) != (verdict.cost if counts_costs else verdict.steps)


def take_best(result: Result, valid: List[ValidPlan]) -> None:
    """Notes the best of the valid plans: the first of least cost or, where costs do not count, of fewest steps."""
    best = min(valid, key=lambda it: it.verdict.steps)
    result.best_steps = best.verdict.steps
    if result.counts_costs:
        for it in valid:
            cost = it.verdict.cost
            if cost is not None and (result.best_cost is None or cost < result.best_cost):
                result.best_cost, best = cost, it
    result.best, result.best_line, result.best_plan_steps = best.plan, best.line, best.verdict.steps


@dataclasses.dataclass
class Total:
    """The sums over results of one planner."""
    results: List[Result]

    @functools.cached_property
    def coverage(self) -> int:
        """How many problems are solved."""
        return sum(it.solved for it in self.results)

    @functools.cached_property
    def score(self) -> Fraction:
        """The sum of the scores. As a fraction it may have thousands of digits."""
        return sum((it.score for it in self.results), Fraction(0))

    @property
    def key(self) -> Tuple[Fraction, int]:
        """What planners are ranked by."""
        return self.score, self.coverage

    @functools.cached_property
    def plans(self) -> int:
        """How many plans there are."""
        return sum(it.plans for it in self.results)

    @functools.cached_property
    def valid(self) -> int:
        """How many plans are valid."""
        return sum(it.valid or 0 for it in self.results)

    @functools.cached_property
    def failed(self) -> int:
        """How many plans were judged and are not valid."""
        return sum(it.failed for it in self.results)

    @functools.cached_property
    def other_costs(self) -> int:
        """How many valid plans cost something else than the planner says."""
        return sum(it.other_costs for it in self.results)

    @functools.cached_property
    def unjudged(self) -> int:
        """How many plans were not judged."""
        return sum(it.plans - it.judged for it in self.results)


class Tournament:
    """All results, by problem and by planner."""

    def __init__(self, found: List[Judged], references: References, dialect: str) -> None:
        self.found, self.references, self.dialect = found, references, dialect
        self.planners = sorted({name for it in found for name in it.entry.plans}, key=numeric_order)
        self.rows = [results_of(it, self.planners, references) for it in found]
        self.results = [result for row in self.rows for result in row]
        shares: Dict[Tuple[str, Optional[str]], List[Result]] = collections.defaultdict(list)
        for result in self.results:
            shares[result.planner, None].append(result)
            shares[result.planner, result.domain].append(result)
        self.totals = {share: Total(results) for share, results in shares.items()}

    def total(self, planner: str, domain: Optional[str] = None) -> Total:
        """The sums of a planner, over all domains or over one."""
        return self.totals[planner, domain]

    def domains(self) -> List[str]:
        """The domains, in their order."""
        return list(dict.fromkeys(it.entry.domain for it in self.found))

    def problems(self, domain: str) -> List[Tuple[Judged, List[Result]]]:
        """The findings and results of a domain's problems."""
        return [(it, row) for it, row in zip(self.found, self.rows) if it.entry.domain == domain]

    def standings(self) -> List[Tuple[int, str, Total]]:
        """The planners with their ranks and sums, the best first: by score, then by coverage. Equal ones share a rank."""
        totals = [(planner, self.total(planner)) for planner in self.planners]
        ordered = sorted(totals, key=lambda it: it[1].key, reverse=True)
        return [(1 + sum(it.key > total.key for _, it in totals), planner, total) for planner, total in ordered]
