"""Tests of the values: how they are printed, compared and read."""
from __future__ import annotations

import dataclasses
import pickle
import unittest
from fractions import Fraction

from plan_judge import Action, Atom, Equality, Fails, MissesGoal, Planner, Report, Unreadable, Valid, read_report, write_report
from plan_judge.verdicts import decimal_text

RECORDS = """\
{"type":"run","domain":"d","problem":"p"}
{"type":"plan","planner":"\u2028","plan":1,"verdict":"valid","steps":2,"cost":10000000000000000000000.000000001}
{"type":"plan","planner":"\u2028","plan":2,"verdict":"valid","steps":1,"cost":null}
{"type":"plan","planner":"\u2028","plan":3,"verdict":"fails","step":1,"action":["go","x","y"],"reason":"missing",\
"missing":[["not",["=","x","y"]],["at","x"]]}
{"type":"planner","planner":"\u2028","plans":3,"valid":2,"best":1,"cost":10000000000000000000000.000000001}
{"type":"plan","planner":"b","plan":1,"verdict":"fails","step":3,"action":["go","x","y"],"reason":"unknown object","argument":2}
{"type":"plan","planner":"b","plan":2,"verdict":"goal","missing":[["=","x","y"],["not",["lit"]]]}
{"type":"plan","planner":"b","plan":3,"verdict":"unreadable","line":7}
{"type":"planner","planner":"b","plans":3,"valid":0,"best":null,"cost":null}
"""
GO = Action("go", ("x", "y"))
VERDICTS = [
    Valid(2, 10**22 + Fraction(1, 10**9)),
    Valid(1),
    Fails(1, GO, "missing", None, (Equality("x", "y", negated=True), Atom("at", ("x",)))),
    Fails(3, GO, "unknown object", 2),
    MissesGoal((Equality("x", "y"), Atom("lit", negated=True))),
    Unreadable(7),
]
WORDS = [
    "valid 2 cost 10000000000000000000000.000000001",
    "valid 1",
    "fails at 1 (go x y): missing (not (= x y)) (at x)",
    "fails at 3 (go x y): unknown object y",
    "goal missing (= x y) (not (lit))",
    "unreadable line 7",
]


class Values(unittest.TestCase):
    def test_records_are_read(self) -> None:
        found = read_report(RECORDS)
        self.assertEqual((found.domain, found.problem, found.counts_costs), ("d", "p", True))
        self.assertEqual(found.planners, (Planner("\u2028", tuple(VERDICTS[:3])), Planner("b", tuple(VERDICTS[3:]))))
        self.assertEqual(read_report(RECORDS.encode()), found)

    def test_records_are_written(self) -> None:
        self.assertEqual(write_report(read_report(RECORDS)), RECORDS)
        without = Report("d", "p", (Planner("\n\"", (Valid(3),)), Planner("none", ())), False)
        self.assertEqual(read_report(write_report(without)), without)

    def test_other_texts_are_no_report(self) -> None:
        lines = RECORDS.splitlines(keepends=True)
        for text in ("", "domain d problem p\n", RECORDS[:-1], "".join(lines[:-1]), "".join(lines[1:]), "".join(lines[:2] + lines[3:]), "[]\n",
                     RECORDS.replace("fails", "falls"), "null\n", '{"type":"run"}\n'):
            with self.assertRaisesRegex(ValueError, "the text is no report in JSON"):
                read_report(text)

    def test_the_text_of_a_report(self) -> None:
        planners = Planner("a b", tuple(VERDICTS[:2])), Planner("none", ())
        self.assertEqual(Report("d", "p", planners, True).text.splitlines(), [
            "domain d problem p", "a b 1 valid 2 cost 10000000000000000000000.000000001", "a b 2 valid 1 cost -",
            "a b plans 2 valid 2 best 1 cost 10000000000000000000000.000000001", "none plans 0 valid 0 best - cost -"])
        self.assertEqual(Report("d", "p", planners[1:], False).text.splitlines()[1:], ["none plans 0 valid 0 best -"])

    def test_words(self) -> None:
        self.assertEqual([str(it) for it in VERDICTS], WORDS)
        self.assertEqual(str(Fails(2, GO, "wrong type", 1)), "fails at 2 (go x y): x has the wrong type")
        self.assertEqual(str(Fails(2, Action("a"), "unknown action")), "fails at 2 (a): unknown action")
        self.assertEqual(str(Fails(2, GO, "wrong number of arguments")), "fails at 2 (go x y): wrong number of arguments")

    def test_only_valid_is_true(self) -> None:
        self.assertEqual([bool(it) for it in VERDICTS], [True, True, False, False, False, False])
        self.assertTrue(Valid(0))

    def test_costs_are_printed_as_decimals(self) -> None:
        given = [Fraction(0), Fraction(12), Fraction(100), Fraction(1, 2), Fraction(13, 4), Fraction(1, 10**9), 10**30 + Fraction(3, 1000)]
        printed = ["0", "12", "100", "0.5", "3.25", "0.000000001", "1" + "0" * 30 + ".003"]
        self.assertEqual([decimal_text(it) for it in given], printed)

    def test_best_and_cost(self) -> None:
        """The least cost may be that of another plan than the shortest, and only defined costs count."""
        planner = Planner("a", (Valid(5, Fraction(1, 3)), Valid(4, Fraction(2)), Valid(3), Unreadable(1)))
        self.assertEqual((planner.best, planner.cost, len(planner.valid)), (3, Fraction(1, 3), 3))
        none = Planner("a", (Unreadable(1),))
        self.assertEqual((none.best, none.cost, none.valid), (None, None, ()))

    def test_the_only_verdict(self) -> None:
        one, none = Planner("a", (Valid(1),)), Planner("b", ())
        self.assertEqual(Report("d", "p", (none, one), False).verdict, Valid(1))
        for planners, count in ((), 0), ((one, one), 2):
            with self.assertRaisesRegex(ValueError, "about %d plans" % count):
                Report("d", "p", planners, False).verdict

    def test_values_are_frozen_and_can_be_pickled(self) -> None:
        for verdict in VERDICTS:
            self.assertEqual(pickle.loads(pickle.dumps(verdict)), verdict)
            self.assertEqual(len({verdict, pickle.loads(pickle.dumps(verdict))}), 1)
        with self.assertRaises(dataclasses.FrozenInstanceError):
            setattr(VERDICTS[-1], "line", 8)


if __name__ == "__main__":
    unittest.main()
