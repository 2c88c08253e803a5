"""Reads and writes reports as the program prints them with --format json."""
from __future__ import annotations

import json
from fractions import Fraction
from typing import Any, Dict, List, NamedTuple, Optional, Tuple, Union

from .verdicts import Action, Atom, Condition, Equality, Fails, Formula, MissesGoal, Planner, Report, Unreadable, Valid, Verdict, decimal_text

Record = Dict[str, Any]
DECODER = json.JSONDecoder(parse_float=Fraction)  # a float would round a cost
ENCODER = json.JSONEncoder(ensure_ascii=False, separators=(",", ":"))


class Parts(NamedTuple):
    """The members of a report, but with lists of names and verdicts instead of planners."""

    domain: str
    problem: str
    planners: List[Tuple[str, List[Verdict]]]
    counts_costs: bool


def _tuple(part: Any) -> Any:
    return tuple(map(_tuple, part)) if isinstance(part, list) else part


def _listed(part: Any) -> Any:
    return list(map(_listed, part)) if isinstance(part, tuple) else part


def _condition(words: List[Any], negated: bool = False) -> Condition:
    if words[0] == "not" and all(isinstance(it, str) for it in words[1]):
        return _condition(words[1], True)
    if not all(isinstance(it, str) for it in words):
        return Formula(words[0], tuple(map(_tuple, words[1:])))
    if words[0] == "=":
        return Equality(words[1], words[2], negated)
    return Atom(words[0], tuple(words[1:]), negated)


def _conditions(record: Record) -> Tuple[Condition, ...]:
    return tuple(map(_condition, record.get("missing", ())))


def _cost(record: Record) -> Optional[Fraction]:
    cost = record.get("cost")
    return None if cost is None else Fraction(cost)


def _verdict(record: Record) -> Verdict:
    kind = record["verdict"]
    if kind == "valid":
        return Valid(record["steps"], _cost(record))
    if kind == "goal":
        return MissesGoal(_conditions(record))
    if kind == "unreadable":
        return Unreadable(record["line"])
    if kind != "fails":
        raise ValueError
    name, *arguments = record["action"]
    return Fails(record["step"], Action(name, tuple(arguments)), record["reason"], record.get("argument"), _conditions(record))


def _record(line: str) -> Any:
    """As DECODER.decode, but spaces around the record are skipped without regular expressions, which takes less time."""
    words = line.strip(" \t\r")
    record, end = DECODER.raw_decode(words)
    if end != len(words):
        raise ValueError
    return record


def _parts(text: str) -> Parts:
    # Not splitlines, which also splits at letters that a name may have.
    first, *others = map(_record, text.split("\n")[:-1])
    planners: List[Tuple[str, List[Verdict]]] = []
    verdicts: List[Verdict] = []
    for record in others:
        if record["type"] == "plan":
            verdicts.append(_verdict(record))
        elif record["plans"] == len(verdicts):
            planners.append((record["planner"], verdicts))
            verdicts = []
        else:
            raise ValueError
    if verdicts or first["type"] != "run" or not text.endswith("\n"):
        raise ValueError
    return Parts(first["domain"], first["problem"], planners, bool(others) and "cost" in others[-1])


def read_parts(text: Union[str, bytes]) -> Parts:
    """The parts of the report in a text. ValueError if the text is anything else than one whole report."""
    try:
        return _parts(text if isinstance(text, str) else text.decode("utf-8", "surrogateescape"))
    except (AttributeError, IndexError, KeyError, TypeError, ValueError) as error:
        raise ValueError("the text is no report in JSON") from error


def read_report(text: Union[str, bytes]) -> Report:
    """The report in what the program printed with --format json, as it may be kept in a file, or in what `write_report` gives.

    Raises ValueError if the text is anything else than one whole report.
    """
    found = read_parts(text)
    return Report(found.domain, found.problem, tuple(Planner(name, tuple(own)) for name, own in found.planners), found.counts_costs)


def _words(condition: Condition) -> List[Any]:
    if isinstance(condition, Formula):
        return [condition.operator, *map(_listed, condition.parts)]
    words = ["=", condition.left, condition.right] if isinstance(condition, Equality) else [condition.predicate, *condition.arguments]
    return ["not", words] if condition.negated else words


def _members(verdict: Verdict) -> Record:
    if isinstance(verdict, Valid):
        return {"verdict": "valid", "steps": verdict.steps}
    if isinstance(verdict, MissesGoal):
        return {"verdict": "goal", "missing": list(map(_words, verdict.missing))}
    if isinstance(verdict, Unreadable):
        return {"verdict": "unreadable", "line": verdict.line}
    assert isinstance(verdict, Fails)
    members: Record = {"step": verdict.step, "action": [verdict.action.name, *verdict.action.arguments], "reason": verdict.reason}
    if verdict.argument is not None:
        members["argument"] = verdict.argument
    if verdict.reason == "missing":
        members["missing"] = list(map(_words, verdict.missing))
    return {"verdict": "fails", **members}


def _line(record: Record, cost: Optional[Fraction], has_cost: bool) -> str:
    """The line of a record. A cost is printed with all its digits, which no number of json has."""
    line = ENCODER.encode(record)
    return "%s,\"cost\":%s}\n" % (line[:-1], "null" if cost is None else decimal_text(cost)) if has_cost else line + "\n"


def write_report(report: Report) -> str:
    """The report as the program prints it with --format json, if each file has the name of its planner."""
    lines = [_line({"type": "run", "domain": report.domain, "problem": report.problem}, None, False)]
    for planner in report.planners:
        for number, verdict in enumerate(planner.verdicts, 1):
            record = {"type": "plan", "planner": planner.name, "plan": number, **_members(verdict)}
            cost = verdict.cost if isinstance(verdict, Valid) else None
            lines.append(_line(record, cost, report.counts_costs and isinstance(verdict, Valid)))
        summary = {"type": "planner", "planner": planner.name, "plans": len(planner.verdicts), "valid": len(planner.valid), "best": planner.best}
        lines.append(_line(summary, planner.cost, report.counts_costs))
    return "".join(lines)
