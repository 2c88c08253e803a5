"""What the program says about plans."""
from __future__ import annotations

import abc
import dataclasses
from fractions import Fraction
from typing import Any, Iterable, Literal, Optional, Tuple, Union

Reason = Literal["unknown action", "wrong number of arguments", "unknown object", "wrong type", "missing"]


def _list(*words: str) -> str:
    return "(%s)" % " ".join(words)


@dataclasses.dataclass(frozen=True)
class Action:
    """A step of a plan: the name of an action and its arguments."""

    name: str
    arguments: Tuple[str, ...] = ()

    def __str__(self) -> str:
        return _list(self.name, *self.arguments)


@dataclasses.dataclass(frozen=True)
class Atom:
    """The condition that an atom is true, or false if the condition is negated."""

    predicate: str
    arguments: Tuple[str, ...] = ()
    negated: bool = False

    def __str__(self) -> str:
        atom = _list(self.predicate, *self.arguments)
        return _list("not", atom) if self.negated else atom


@dataclasses.dataclass(frozen=True)
class Equality:
    """The condition that two objects are the same, or differ if the condition is negated."""

    left: str
    right: str
    negated: bool = False

    def __str__(self) -> str:
        equality = _list("=", self.left, self.right)
        return _list("not", equality) if self.negated else equality


def _text(part: Any) -> str:
    return part if isinstance(part, str) else _list(*map(_text, part))


@dataclasses.dataclass(frozen=True)
class Formula:
    """A condition that is made of others, as in the dialect adl: an operator such as "or" or "forall", and what stands behind it. Lists are tuples."""

    operator: str
    parts: Tuple[Any, ...]

    def __str__(self) -> str:
        return _text((self.operator, *self.parts))


Condition = Union[Atom, Equality, Formula]


def _missing(conditions: Iterable[Condition]) -> str:
    return " ".join(["missing", *map(str, conditions)])


class Verdict(abc.ABC):
    """The verdict on a plan. It is true if the plan is valid; str() gives it in the words of the report."""

    def __bool__(self) -> bool:
        return isinstance(self, Valid)

    @abc.abstractmethod
    def __str__(self) -> str:
        """The verdict in the words of the report."""


@dataclasses.dataclass(frozen=True)
class Valid(Verdict):
    """The plan is valid."""

    steps: int
    cost: Optional[Fraction] = None  # None if it is undefined, or if costs are not counted

    def __str__(self) -> str:
        return "valid %d" % self.steps + ("" if self.cost is None else " cost %s" % decimal_text(self.cost))


@dataclasses.dataclass(frozen=True)
class Fails(Verdict):
    """A step cannot be taken."""

    step: int  # the first such step, counted from 1
    action: Action
    reason: Reason
    argument: Optional[int] = None  # counted from 1, for "unknown object" and "wrong type"
    missing: Tuple[Condition, ...] = ()  # for "missing": the conditions that do not hold before the step

    def __str__(self) -> str:
        why: str = self.reason
        if self.argument is not None:
            word = self.action.arguments[self.argument - 1]
            why = "unknown object " + word if why == "unknown object" else word + " has the wrong type"
        elif self.missing:
            why = _missing(self.missing)
        return "fails at %d %s: %s" % (self.step, self.action, why)


@dataclasses.dataclass(frozen=True)
class MissesGoal(Verdict):
    """Every step can be taken, but the goal does not hold at the end."""

    missing: Tuple[Condition, ...]  # the conditions of the goal that do not hold

    def __str__(self) -> str:
        return "goal " + _missing(self.missing)


@dataclasses.dataclass(frozen=True)
class Unreadable(Verdict):
    """The text is not a plan."""

    line: int  # of the first fault, counted from 1 within this plan

    def __str__(self) -> str:
        return "unreadable line %d" % self.line


@dataclasses.dataclass(frozen=True)
class Planner:
    """A planner and the verdicts on its plans, in their order."""

    name: str
    verdicts: Tuple[Verdict, ...]

    @property
    def valid(self) -> Tuple[Valid, ...]:
        """The verdicts on the valid plans."""
        return tuple(it for it in self.verdicts if isinstance(it, Valid))

    @property
    def best(self) -> Optional[int]:
        """The least number of steps of a valid plan, or None."""
        return min((it.steps for it in self.valid), default=None)

    @property
    def cost(self) -> Optional[Fraction]:
        """The least defined cost of a valid plan, perhaps of another one than the shortest, or None."""
        return min((it.cost for it in self.valid if it.cost is not None), default=None)


@dataclasses.dataclass(frozen=True)
class Report:
    """The verdicts on the plans of all planners."""

    domain: str  # the names in the two texts, in lower case
    problem: str
    planners: Tuple[Planner, ...]
    counts_costs: bool  # whether the domain declares total-cost

    @property
    def verdicts(self) -> Tuple[Verdict, ...]:
        """The verdicts on all plans, in the order in which the plans were given."""
        return tuple(verdict for planner in self.planners for verdict in planner.verdicts)

    @property
    def verdict(self) -> Verdict:
        """The verdict on the only plan; a ValueError if the report is about another number of plans."""
        verdicts = self.verdicts
        if len(verdicts) != 1:
            raise ValueError("the report is about %d plans, not about one" % len(verdicts))
        return verdicts[0]

    @property
    def text(self) -> str:
        """The report in lines, as the program prints it if each file has the name of its planner."""
        lines = ["domain %s problem %s" % (self.domain, self.problem)]
        for planner in self.planners:
            lines += ["%s %d %s" % (planner.name, number, self.words(it)) for number, it in enumerate(planner.verdicts, 1)]
            best = "-" if planner.best is None else planner.best
            summary = "%s plans %d valid %d best %s" % (planner.name, len(planner.verdicts), len(planner.valid), best)
            if self.counts_costs:
                summary += " cost " + ("-" if planner.cost is None else decimal_text(planner.cost))
            lines.append(summary)
        return "".join(line + "\n" for line in lines)

    def words(self, verdict: Verdict) -> str:
        """A verdict in the words of the report, which also say that a cost is undefined."""
        undefined = self.counts_costs and isinstance(verdict, Valid) and verdict.cost is None
        return str(verdict) + (" cost -" if undefined else "")


def decimal_text(cost: Fraction) -> str:
    """A cost as the program prints it: a decimal number without zeros at its end. Costs are whole billionths."""
    return ("%d.%09d" % divmod(int(cost * 10**9), 10**9)).rstrip("0").rstrip(".")
