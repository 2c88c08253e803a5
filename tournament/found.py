"""What plan_judge says of the plans for a problem, with the lines of its report, which the pages show."""
from __future__ import annotations

import dataclasses
import functools
from typing import Dict, List, NamedTuple, Optional, Tuple

from plan_judge import Report, Verdict, read_report, write_report

from .entries import Entry
from .plans import Plan


class Line(NamedTuple):
    """A line of the reports, counted from 1, with the verdict that it states."""
    number: int
    verdict: Verdict


class Reports:
    """The reports on a problem, one for each call of plan_judge. Kept ones are read once something asks for them."""

    def __init__(self, each: Optional[List[Report]] = None, written: Optional[List[str]] = None) -> None:
        self._each, self._written = each, written

    @functools.cached_property
    def each(self) -> List[Report]:
        """The reports."""
        return list(map(read_report, self._written or [])) if self._each is None else self._each

    @functools.cached_property
    def written(self) -> List[str]:
        """The reports as they are kept."""
        return list(map(write_report, self._each or [])) if self._written is None else self._written

    @functools.cached_property
    def text(self) -> str:
        """The reports as plan_judge prints them."""
        return "".join(it.text for it in self.each)

    @property
    def lines(self) -> List[str]:
        """The lines of the text."""
        return self.text.split("\n")[:-1]

    @property
    def counts_costs(self) -> bool:
        """Whether the domain declares total-cost."""
        return any(it.counts_costs for it in self.each)

    @functools.cached_property
    def verdicts(self) -> Dict[Tuple[str, int], Line]:
        """The verdicts by bundles and numbers of plans."""
        return self._numbered[0]

    @property
    def summaries(self) -> Dict[str, int]:
        """The number of each bundle's last line, with the sums of its plans."""
        return self._numbered[1]

    @functools.cached_property
    def _numbered(self) -> Tuple[Dict[Tuple[str, int], Line], Dict[str, int]]:
        verdicts: Dict[Tuple[str, int], Line] = {}
        summaries: Dict[str, int] = {}
        line = 0
        for report in self.each:
            line += 1
            for bundle in report.planners:
                verdicts.update(((bundle.name, at), Line(line + at, it)) for at, it in enumerate(bundle.verdicts, 1))
                line += len(bundle.verdicts) + 1
                summaries[bundle.name] = line
        return verdicts, summaries


@dataclasses.dataclass
class Judged:
    """A problem with what was found: its plans, and the reports, or why there are none.

    MARK is the fingerprint of the input. If the plans were judged but cannot be scored, UNSCORED says why. EXPLAINED is as in an Answer, and
    UNEXPLAINED says why something could not be explained.
    """
    entry: Entry
    plans: List[Plan]
    report: Optional[Reports] = None
    refused: str = ""
    mark: str = ""
    unscored: str = ""
    explained: Dict[str, str] = dataclasses.field(default_factory=dict)
    unexplained: str = ""
    kept: bool = True  # whether the next call may use it again

    def line(self, plan: Plan) -> Optional[Line]:
        """The line with the verdict on a plan, or None if it was not judged."""
        return None if self.report is None or plan.unread else self.report.verdicts[plan.bundle, plan.number]

    def first_failing(self) -> List[Plan]:
        """Each planner's first plan that was judged and is not valid."""
        plans: Dict[str, Plan] = {}
        for plan in self.plans:
            line = self.line(plan)
            if line and not line.verdict:
                plans.setdefault(plan.planner, plan)
        return list(plans.values())
