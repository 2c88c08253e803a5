"""The files results.tsv and results.json."""
from __future__ import annotations

import json
from typing import Any, Dict, Iterable, List, Optional

from .exact import cost_text, rounded
from .names import shown
from .scores import Result, Total, Tournament

COLUMNS = ["domain", "problem", "planner", "plans", "valid", "best_steps", "best_cost", "reference", "score", "status"]
DIGITS = 6  # of a score


def number(value: Optional[int]) -> str:
    """A number of a result, or - if there is none."""
    return "-" if value is None else str(value)


def cells(result: Result) -> List[str]:
    """The cells of a result's row."""
    return [
        shown(result.domain), shown(result.problem), shown(result.planner), str(result.plans), number(result.valid),
        number(result.best_steps), cost_text(result.best_cost), cost_text(result.reference),
        rounded(result.score, DIGITS) if result.scored else "-", shown(result.status)]


def as_tsv(tournament: Tournament) -> str:
    """The text of results.tsv."""
    lines = [COLUMNS] + [cells(it) for it in tournament.results]
    return "".join("\t".join(line) + "\n" for line in lines)


def total_record(total: Total) -> Dict[str, Any]:
    """Sums of a planner, for results.json."""
    return {
        "coverage": total.coverage, "score": rounded(total.score, DIGITS), "plans": total.plans,
        "valid": total.valid, "failed": total.failed, "not_judged": total.unjudged}


def result_record(result: Result) -> Dict[str, Any]:
    """A result, for results.json. Numbers that need not be whole are texts, so that no reader rounds them."""
    best = None
    if result.best is not None:
        best = {"file": result.best.file, "part": result.best.part or None, "report_line": result.best_line}
    record: Dict[str, Any] = dict(zip(COLUMNS, cells(result)))
    record.update(plans=result.plans, valid=result.valid, best_steps=result.best_steps)
    for name, value in ("best_cost", result.best_cost), ("reference", result.reference):
        record[name] = None if value is None else cost_text(value)
    if not result.scored:
        record["score"] = None
    exact_score = str(result.score) if result.scored else None
    record.update(failed=result.failed, exact_score=exact_score, counts="cost" if result.counts_costs else "steps", best_plan=best)
    return record


def lines_of(records: Iterable[Dict[str, Any]]) -> str:
    """Records of results.json, each in a line."""
    return ",\n".join(json.dumps(it, ensure_ascii=False) for it in records)


def as_json(tournament: Tournament) -> str:
    """The text of results.json, with a line for each record."""
    standings = [
        {"rank": rank, "planner": shown(planner), **total_record(total),
         "domains": {shown(it): total_record(tournament.total(planner, it)) for it in tournament.domains()}}
        for rank, planner, total in tournament.standings()]
    results = lines_of(result_record(it) for it in tournament.results)
    return '{"dialect": %s,\n"standings": [\n%s\n],\n"results": [\n%s\n]}\n' % (json.dumps(tournament.dialect), lines_of(standings), results)
