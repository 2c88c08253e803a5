"""Workloads for the benchmark: tasks of several shapes, with plans that are valid by construction.

Each workload is a function that yields (name of a file, its text) pairs: a domain, a problem and one file a planner. All randomness
comes from one seeded generator, so the same scale gives the same bytes on every machine.
"""
import collections
import itertools
import random

WALK = """(define (domain walk)
  (:requirements :strips)
  (:predicates (at ?p) (way ?a ?b) (lit ?p) (dark ?p))
  (:action go :parameters (?a ?b)
    :precondition (and (at ?a) (way ?a ?b))
    :effect (and (not (at ?a)) (at ?b)))
  (:action light :parameters (?p)
    :precondition (and (at ?p) (dark ?p))
    :effect (and (lit ?p) (not (dark ?p))))
  (:action darken :parameters (?p)
    :precondition (and (at ?p) (lit ?p))
    :effect (and (dark ?p) (not (lit ?p)))))
"""

# The same with costs: going costs the length of the way, light and darkness cost 0.5 each.
COSTLY = WALK.replace("  (:action go", "  (:functions (length ?a ?b) (total-cost))\n  (:action go", 1)
for effect, cost in (("(at ?b)", "(length ?a ?b)"), ("(not (dark ?p))", "0.5"), ("(not (lit ?p))", "0.5")):
    COSTLY = COSTLY.replace(effect + "))", "%s (increase (total-cost) %s)))" % (effect, cost), 1)

DEEP = """(define (domain deep)
  (:requirements :strips :typing)
  (:types %s)
  (:predicates (open ?t - object) (shut ?t - object))
  (:action shutter :parameters (?t - %s) :precondition (open ?t) :effect (and (shut ?t) (not (open ?t))))
  (:action opener :parameters (?t - (either %s)) :precondition (shut ?t) :effect (and (open ?t) (not (shut ?t)))))
"""

CREW = """(define (domain crew)
  (:requirements :strips)
  (:predicates (row %s) (turn ?a) (next ?a ?b))
  (:action shift :parameters (%s ?a ?b)
    :precondition (and (turn ?a) (next ?a ?b) (not (row %s)))
    :effect (and (not (turn ?a)) (turn ?b) (row %s)))
  (:action back :parameters (%s ?a ?b)
    :precondition (and (turn ?b) (next ?a ?b) (row %s))
    :effect (and (not (turn ?b)) (turn ?a) (not (row %s)))))
"""

# A turn moves whatever is in three places to the next of them: three effects under `when` for each of eight pieces.
CUBE = """(define (domain cube)
  (:requirements :typing :conditional-effects :universal-preconditions)
  (:types piece place)
  (:constants %s - place)
  (:predicates (at ?p - piece ?l - place))
%s)
"""
TURN = """  (:action turn-%s
    :effect (forall (?p - piece) (and%s)))
"""
WHEN = "\n      (when (at ?p %s) (and (not (at ?p %s)) (at ?p %s)))"

# Each lit lamp has to have a neighbour that is dark.
LAMPS = """(define (domain lamps)
  (:requirements :adl)
  (:types lamp)
  (:predicates (near ?a ?b - lamp) (lit ?a - lamp) (seen))
  (:action look :parameters (?from - lamp)
    :precondition (forall (?a - lamp) (imply (lit ?a) (exists (?b - lamp) (and (near ?a ?b) (not (lit ?b))))))
    :effect (seen)))
"""

TOWER = """(define (domain tower)
  (:requirements :adl)
  (:types lift floor)
  (:predicates (at ?l - lift ?f - floor) (idle ?l - lift))
  (:action ride :parameters (?l - lift ?from ?to - floor)
    :precondition (and (at ?l ?from) (forall (?other - lift) (or (idle ?other) (= ?other ?l))))
    :effect (and (not (at ?l ?from)) (at ?l ?to))))
"""

RING = """(define (domain ring)
  (:requirements :adl)
  (:predicates (wired ?a ?b) (lit ?a))
  (:action press :parameters (?a)
    :effect (forall (?b) (and (when (and (wired ?a ?b) (lit ?b)) (not (lit ?b))) (when (and (wired ?a ?b) (not (lit ?b))) (lit ?b))))))
"""


def problem(name, domain, objects, init, goal):
    return "(define (problem %s) (:domain %s)\n  (:objects %s)\n  (:init %s)\n  (:goal (and %s)))\n" % (
        name, domain, objects, "\n    ".join(init), " ".join(goal))


def plain(steps):
    return "".join("(%s)\n" % step for step in steps)


def as_a_log(steps):
    """The form of planners' logs: upper case, a stamp before each step and a cost behind it, comments between them."""
    lines = ["; found by a planner\n"]
    for number, step in enumerate(steps):
        lines.append("%d.%03d: (%s) [1]  ; cost 1\n" % (number // 1000, number % 1000, step.upper()))
    lines[-1:] = [lines[-1], "; cost = %d (unit cost)\n" % len(steps)]
    return "".join(lines)


def each_its_own(spelled):
    """Spells the uses of each step by their numbers, so that hardly two of them have the same text."""
    def written(steps):
        uses, lines = collections.Counter(), []
        for step in steps:
            lines.append("(%s)\n" % spelled(step, uses[step]))
            uses[step] += 1
        return "".join(lines)
    return written


def in_other_letters(step, use):
    """Upper case for some letters: for those whose bits are set in the number of the use."""
    letters = itertools.count()
    return "".join(c.upper() if c.isalpha() and use >> next(letters) & 1 else c for c in step)


def with_other_blanks(step, use):
    return " " * (use % 8) + step.replace(" ", " " * (use // 8 % 8 + 1), 1) + " " * (use // 64 % 64)


def grid(side):
    places = ["c%d-%d" % (x, y) for x in range(side) for y in range(side)]
    ways = []
    for x in range(side):
        for y in range(side):
            for dx, dy in ((0, 1), (1, 0), (0, -1), (-1, 0)):
                if 0 <= x + dx < side and 0 <= y + dy < side:
                    ways.append("(way c%d-%d c%d-%d)" % (x, y, x + dx, y + dy))
    return places, ways


def wander(rng, side, count):
    """A walk over the grid that lights and darkens places: steps that are applicable in their turn."""
    x = y = 0
    lit, steps = set(), []
    while len(steps) < count:
        if rng.random() < 0.3:
            steps.append("%s c%d-%d" % ("darken" if (x, y) in lit else "light", x, y))
            lit ^= {(x, y)}
        else:
            dx, dy = rng.choice(((0, 1), (1, 0), (0, -1), (-1, 0)))
            if 0 <= x + dx < side and 0 <= y + dy < side:
                steps.append("go c%d-%d c%d-%d" % (x, y, x + dx, y + dy))
                x, y = x + dx, y + dy
    return steps


def on_a_grid(side, planners, plans, steps, written, domain=WALK):
    def files(scale):
        rng = random.Random(1)
        places, ways = grid(side)
        init = ["(at c0-0)"] + ways + ["(dark %s)" % place for place in places]
        if domain == COSTLY:
            init += ["(= %s %d.25)" % (way.replace("way", "length"), number % 50) for number, way in enumerate(ways)]
        yield "domain.pddl", domain
        yield "problem.pddl", problem("grid-%d" % side, "walk", " ".join(places), init, ["(way c0-0 c0-1)"])
        for planner in range(planners):
            parts = []
            for _ in range(max(1, int(plans * scale))):
                parts.append(written(wander(rng, side, max(1, int(steps * (scale if plans == 1 else 1))))))
            yield "planner-%d" % planner, "---\n".join(parts)
    return files


def deep_types(scale):
    depth = 1000
    types = " ".join("t%d - t%d" % (n + 1, n) for n in range(depth))
    yield "domain.pddl", DEEP % (types, "t0", " ".join("t%d" % n for n in range(31)))
    names = ["o%d" % n for n in range(200)]
    yield "problem.pddl", problem("deep-1", "deep", " ".join("%s - t%d" % (name, depth) for name in names),
                                  ["(open %s)" % name for name in names], ["(open o0)"])
    steps = []
    for turn in range(int(2500 * scale)):
        steps += ["shutter %s" % name for name in names[:100]]
        steps += ["opener %s" % name for name in names[:100]]
    yield "planner-0", plain(steps)


def many_arguments(scale):
    width = 12
    variables = " ".join("?x%d" % n for n in range(width))
    yield "domain.pddl", CREW % ((variables,) * 7)
    names = ["n%d" % n for n in range(100)]
    init = ["(turn n0)"] + ["(next n%d n%d)" % (n, n + 1) for n in range(99)]
    yield "problem.pddl", problem("crew-1", "crew", " ".join(names), init, ["(turn n0)"])
    rng = random.Random(2)
    steps = []
    for _ in range(int(600 * scale)):
        crews = [" ".join(rng.choice(names) for _ in range(width)) for _ in range(99)]
        crews = list(dict.fromkeys(crews))
        steps += ["shift %s n%d n%d" % (crew, n, n + 1) for n, crew in enumerate(crews)]
        steps += ["back %s n%d n%d" % (crew, n, n + 1) for n, crew in reversed(list(enumerate(crews)))]
    yield "planner-0", plain(steps)


def large_problem(scale):
    side = int(250 * min(scale, 1) ** 0.5)
    places, ways = grid(side)
    init = ["(at c0-0)"] + ways + ["(dark %s)" % place for place in places]
    yield "domain.pddl", WALK
    yield "problem.pddl", problem("large", "walk", " ".join(places), init, ["(way c0-0 c0-1)"])
    yield "planner-0", ""


def turns(scale):
    places = ["l%d" % number for number in range(8)]
    cycles = [(0, 1, 2), (2, 3, 4), (4, 5, 6), (6, 7, 0)]
    actions = []
    for number, cycle in enumerate(cycles):
        around = [places[at] for at in cycle]
        actions.append(TURN % (number, "".join(WHEN % (here, here, there) for here, there in zip(around, around[1:] + around[:1]))))
    yield "domain.pddl", CUBE % (" ".join(places), "".join(actions).rstrip("\n"))
    yield "problem.pddl", problem("cube-1", "cube", " ".join("p%d" % number for number in range(8)) + " - piece",
                                  ["(at p%d l%d)" % (number, number) for number in range(8)], [])
    rng = random.Random(8)
    yield "planner-0", plain("turn-%d" % rng.randrange(4) for _ in range(int(100000 * scale)))


def looks(scale):
    names = ["a%d" % number for number in range(100)]
    init = ["(near %s %s)" % (name, names[(at + 37) % 100]) for at, name in enumerate(names)] + ["(lit %s)" % name for name in names[::2]]
    yield "domain.pddl", LAMPS
    yield "problem.pddl", problem("lamps-1", "lamps", " ".join(names) + " - lamp", init, ["(seen)"])
    yield "planner-0", plain("look %s" % names[at % 100] for at in range(int(20000 * scale)))


def rides(scale):
    lifts, floors = ["l%d" % number for number in range(5)], ["f%d" % number for number in range(10000)]
    init = ["(at %s f0) (idle %s)" % (lift, lift) for lift in lifts]
    yield "domain.pddl", TOWER
    yield "problem.pddl", problem("tower-1", "tower", "%s - lift %s - floor" % (" ".join(lifts), " ".join(floors)), init, [])
    yield "planner-0", plain("ride l0 f%d f%d" % (7 * at % 10000, 7 * (at + 1) % 10000) for at in range(int(20000 * scale)))


def presses(scale):
    names = ["a%d" % number for number in range(300)]
    init = ["(wired %s %s) (wired %s %s)" % (name, names[(at + 1) % 300], name, names[(at + 2) % 300]) for at, name in enumerate(names)]
    yield "domain.pddl", RING
    yield "problem.pddl", problem("ring-1", "ring", " ".join(names), init, [])
    yield "planner-0", plain("press %s" % names[7 * at % 300] for at in range(int(20000 * scale)))


# The name of a workload, what it is, and its files. A domain with functions is read in the dialect ipc, and one with `forall` in adl.
WORKLOADS = [
    ("many", "10,000 plans of 100 steps by 5 planners", on_a_grid(8, 5, 2000, 100, plain)),
    ("costs", "many, where each action has a cost", on_a_grid(8, 5, 2000, 100, plain, COSTLY)),
    ("long", "one plan of 600,000 steps on a small grid", on_a_grid(8, 1, 1, 600000, plain)),
    ("log", "one plan of 350,000 steps with stamps, costs and comments", on_a_grid(8, 1, 1, 350000, as_a_log)),
    ("letters", "one plan of 300,000 steps, with other letters in upper case in each", on_a_grid(8, 1, 1, 300000, each_its_own(in_other_letters))),
    ("blanks", "one plan of 300,000 steps, with other blanks in each", on_a_grid(8, 1, 1, 300000, each_its_own(with_other_blanks))),
    ("wide", "one plan of 600,000 steps where 190,000 atoms are true", on_a_grid(190, 1, 1, 600000, plain)),
    ("wide-many", "10,000 plans of 50 steps where 190,000 atoms are true", on_a_grid(190, 5, 2000, 50, plain)),
    ("types", "500,000 steps over types 1,000 deep", deep_types),
    ("arguments", "120,000 steps of 14 arguments", many_arguments),
    ("parse", "a problem of 62,500 objects and 310,000 initial atoms, and an empty plan", large_problem),
    ("cube", "100,000 steps of 24 conditional effects", turns),
    ("lamps", "20,000 steps with two quantifiers over 100 objects, one inside the other", looks),
    ("tower", "20,000 steps with a quantifier over 5 of 10,005 objects", rides),
    ("ring", "20,000 steps with effects on 300 objects, of which two are wired", presses),
]
