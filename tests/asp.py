"""Planning with clingo: a translation of PDDL to logic programs. It shares no code with plan_judge.

It takes what the examples have: types, constants, negated conditions, equality and action costs. Atoms are terms f(NAME, OBJECTS..) and steps are
terms a(NAME, OBJECTS..), all of whose words are strings.
"""
from __future__ import annotations

import dataclasses
import json
import re
import subprocess
from fractions import Fraction
from typing import Any, Dict, Iterator, List, Optional, Tuple

Tree = Any  # a word, or a list of trees
Literal = Tuple[bool, List[str]]

SECONDS = 60
# The state before step 1 is that of time 0. What a step both deletes and adds is true after it.
RULES = """
true(F,0) :- init(F).
1 { step(A,T) : act(A) } 1 :- T = 1..n.
:- step(A,T), needs(A,F), not true(F,T-1).
:- step(A,T), forbids(A,F), true(F,T-1).
true(F,T) :- step(A,T), adds(A,F).
true(F,T) :- true(F,T-1), T = 1..n, not deleted(F,T).
deleted(F,T) :- step(A,T), deletes(A,F).
:- goal(F), not true(F,n).
:- forbidden(F), true(F,n).
#minimize { C,T : step(A,T), cost(A,C) }.
#show step/2.
"""


class Unsolved(Exception):
    """Why clingo gives no answer."""


def tree(text: str) -> Tree:
    """The list that a text in PDDL is."""
    open_lists: List[List[Tree]] = [[]]
    for word in re.findall(r"[()]|[^\s()]+", re.sub(r";.*", "", text).lower()):
        if word == "(":
            open_lists.append([])
        elif word == ")":
            closed = open_lists.pop()
            open_lists[-1].append(closed)
        else:
            open_lists[-1].append(word)
    return open_lists[0][0]


def section(parts: Tree, name: str) -> List[Tree]:
    """What is in the sections of this name."""
    return [it for part in parts if isinstance(part, list) and part[:1] == [name] for it in part[1:]]


def typed(words: List[Tree]) -> Iterator[Tuple[str, List[str]]]:
    """Names with their types, of a list such as a b - t c."""
    waiting: List[str] = []
    rest = iter(words)
    for word in rest:
        if word == "-":
            kind = next(rest)
            yield from ((it, kind[1:] if isinstance(kind, list) else [kind]) for it in waiting)
            waiting = []
        else:
            waiting.append(word)
    yield from ((it, ["object"]) for it in waiting)


def literals(condition: Tree) -> Iterator[Literal]:
    """The literals of a conjunction: whether each is positive, and its words."""
    if condition[:1] == ["and"]:
        for part in condition[1:]:
            yield from literals(part)
    elif condition:
        yield (False, condition[1]) if condition[0] == "not" else (True, condition)


def term(kind: str, words: List[str], names: Dict[str, str]) -> str:
    """An atom or a step, in which variables have these names."""
    return "%s(%s)" % (kind, ",".join(names.get(it, '"%s"' % it) for it in words))


def fits(variable: str, kinds: List[str]) -> str:
    """The condition that an object is of one of these types."""
    if len(kinds) == 1:
        return 'is(%s,"%s")' % (variable, kinds[0])
    return 'is(%s,"object"), 1 { %s }' % (variable, "; ".join('is(%s,"%s")' % (variable, it) for it in kinds))


@dataclasses.dataclass(frozen=True)
class Plan:
    """A plan: its steps, each a list of words, and its cost."""
    steps: List[List[str]]
    cost: Fraction

    @property
    def text(self) -> str:
        """The plan as planners write it."""
        cost = ("%.9f" % self.cost).rstrip("0").rstrip(".")
        return "".join("(%s)\n" % " ".join(it) for it in self.steps) + "; cost = %s (general cost)\n" % cost


class Task:
    """A domain and a problem as a logic program. Its horizon is the constant n."""

    def __init__(self, domain: str, problem: str) -> None:
        self.domain, self.problem = tree(domain), tree(problem)
        self.counts_costs = any(it == ["total-cost"] for it in section(self.domain, ":functions"))
        numbers = [it[2] for it in section(self.problem, ":init") if it[0] == "="] + re.findall(r"(?<=\s)[0-9.]+(?=\))", domain)
        self.scale = 10 ** max(len(it.partition(".")[2]) for it in ["", *numbers])  # clingo counts in whole numbers
        actions = {it[1]: dict(zip(it[2::2], it[3::2])) for it in self.domain if it[0] == ":action"}
        self.changed = {words[0] for parts in actions.values() for _, words in literals(parts.get(":effect", []))}
        self.lines = [*self.objects(), *self.start(), *self.goal()]
        for name, parts in actions.items():
            self.lines += self.action(name, parts)

    def objects(self) -> Iterator[str]:
        """Facts on the types of objects."""
        above: Dict[str, List[str]] = {}
        for name, kinds in typed(section(self.domain, ":types")):
            above.setdefault(name, []).extend(kinds)
        for name, kinds in [*typed(section(self.domain, ":constants")), *typed(section(self.problem, ":objects"))]:
            found, waiting = {"object"}, list(kinds)
            while waiting:
                kind = waiting.pop()
                waiting += [] if kind in found else above.get(kind, [])
                found.add(kind)
            yield from ('is("%s","%s").' % (name, it) for it in sorted(found))

    def start(self) -> Iterator[str]:
        """Facts on the initial state."""
        for fact in section(self.problem, ":init"):
            if fact[0] == "=" and isinstance(fact[1], list):
                yield "value(%s,%d)." % (term("f", fact[1], {}), Fraction(fact[2]) * self.scale)
            elif fact[0] != "not":
                yield "init(%s)." % term("f", fact, {})

    def goal(self) -> Iterator[str]:
        """Facts on the goal."""
        for positive, words in literals(section(self.problem, ":goal")[0]):
            if words[0] != "=":
                yield "%s(%s)." % ("goal" if positive else "forbidden", term("f", words, {}))
            elif (words[1] == words[2]) != positive:
                yield ":- n = n."

    def action(self, name: str, parts: Dict[str, Tree]) -> Iterator[str]:
        """The rules of an action: its steps, and what each needs, changes and costs."""
        parameters = list(typed(parts.get(":parameters", [])))
        names = {it: "V%d" % at for at, (it, _) in enumerate(parameters)}
        step = term("a", [name, *names], names)
        body = [fits(names[it], kinds) for it, kinds in parameters]
        for positive, words in literals(parts.get(":precondition", [])):
            if words[0] == "=":
                body.append("%s %s %s" % (names.get(words[1], '"%s"' % words[1]), "=" if positive else "!=", names.get(words[2], '"%s"' % words[2])))
            elif words[0] not in self.changed:  # so that only steps are made whose conditions hold at any time
                body.append("%sinit(%s)" % ("" if positive else "not ", term("f", words, names)))
            else:
                yield "%s(%s,%s) :- act(%s)." % ("needs" if positive else "forbids", step, term("f", words, names), step)
        yield "act(%s)%s." % (step, " :- " + ", ".join(body) if body else "")
        for positive, words in literals(parts.get(":effect", [])):
            if words[0] != "increase":
                yield "%s(%s,%s) :- act(%s)." % ("adds" if positive else "deletes", step, term("f", words, names), step)
            elif isinstance(words[2], list):
                yield "cost(%s,C) :- act(%s), value(%s,C)." % (step, step, term("f", words[2], names))
            else:
                yield "cost(%s,%d) :- act(%s)." % (step, Fraction(words[2]) * self.scale, step)

    def ask(self, horizon: int, more: str = "") -> Optional[Plan]:
        """A plan of this length and of the least cost for it, or None."""
        words = ["clingo", "-", "--const=n=%d" % horizon, "--outf=2", "--warn=none", "--time-limit=%d" % SECONDS]
        program = "\n".join(self.lines) + RULES + more
        done = subprocess.run(words, input=program, stdout=subprocess.PIPE, stderr=subprocess.PIPE, text=True)
        answer = json.loads(done.stdout or "{}")
        if answer.get("Result") == "UNSATISFIABLE":
            return None
        if answer.get("Result") not in ("OPTIMUM FOUND", "SATISFIABLE"):
            raise Unsolved("clingo ends with status %d: %s" % (done.returncode, done.stderr.strip()[-200:]))
        best = answer["Call"][-1]["Witnesses"][-1]
        numbered = {int(it.rpartition(",")[2][:-1]): re.findall(r'"([^"]*)"', it) for it in best.get("Value", [])}
        steps = [numbered[it] for it in sorted(numbered)]
        cost = Fraction(sum(best.get("Costs", [])), self.scale) if self.counts_costs else Fraction(len(steps))
        return Plan(steps, cost)

    def plan(self, longest: int) -> Plan:
        """A plan of the fewest steps, and of the least cost among these."""
        for horizon in range(longest + 1):
            found = self.ask(horizon)
            if found is not None:
                return found
        raise Unsolved("there is no plan of up to %d steps" % longest)

    def check(self, steps: List[List[str]]) -> Optional[Plan]:
        """The plan with its cost if it is valid, or None."""
        given = "".join("given(%s,%d).\n" % (term("a", it, {}), at) for at, it in enumerate(steps, 1))
        return self.ask(len(steps), given + ":- step(A,T), not given(A,T).\n")
