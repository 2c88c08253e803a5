"""Tests of tasks: a domain and a problem that are read once."""
from __future__ import annotations

import gc
import unittest
from typing import Any, List, Tuple
from unittest import mock

from plan_judge import Plans, Refused, Task, Text, find_library, judge
from plan_judge.library import KeptTask, _Task

from .given import DOMAIN, FAULTY, PROBLEM, SHORT, Word


class Tasks(unittest.TestCase):
    def test_plans(self) -> None:
        """A plan has the same verdict whatever was judged before it."""
        given: List[Plans] = [SHORT, FAULTY, [SHORT, FAULTY], {"a": [SHORT, ""], "b": "(x"}, SHORT, [SHORT.read_bytes()] * 70]
        with Task(DOMAIN, PROBLEM.read_text()) as task:
            for plans in given:
                self.assertEqual(task.judge(plans), judge(DOMAIN, PROBLEM, plans))

    def test_the_texts_are_read_once(self) -> None:
        if not find_library():
            self.skipTest("there is no library")
        wanted = judge(DOMAIN, PROBLEM, "(a")
        with Task(DOMAIN, PROBLEM) as task, mock.patch("builtins.open", side_effect=OSError):
            self.assertEqual(task.judge("(a"), wanted)

    def test_refused_texts(self) -> None:
        given: List[Tuple[Text, Text]] = [("(", PROBLEM), (DOMAIN, b""), (DOMAIN, PROBLEM.read_bytes() + b"\0"), (Word("none"), PROBLEM), (DOMAIN, Word("/")), ("(", Word("none"))]
        for domain, problem in given:
            with self.subTest(domain=domain, problem=problem):
                with self.assertRaises(Refused) as wanted:
                    judge(domain, problem, SHORT)
                with self.assertRaises(Refused) as raised:
                    Task(domain, problem)
                self.assertEqual((str(raised.exception), vars(raised.exception)), (str(wanted.exception), vars(wanted.exception)))

    def test_refused_plans(self) -> None:
        with Task(DOMAIN, PROBLEM) as task:
            none: List[Plans] = [[], {}, {"a": []}]
            for plans in none:
                self.assertRaises(ValueError, task.judge, plans)
            with self.assertRaises(Refused) as raised:
                task.judge([SHORT, Word("none")])
            self.assertEqual((str(raised.exception), raised.exception.file, raised.exception.kind), ("cannot read none", "plan", "cannot read"))
            self.assertTrue(task.judge(SHORT).verdict)

    def test_a_task_that_is_closed(self) -> None:
        with Task(DOMAIN, PROBLEM) as task:
            pass
        for _ in range(2):
            self.assertRaises(ValueError, task.judge, SHORT)
            task.close()

    def test_a_task_that_is_forgotten(self) -> None:
        """It is given back once, also if it was closed before."""
        for closed in False, True:
            given_back: List[Any] = []
            kept = KeptTask(_Task(), mock.Mock(), given_back.append)
            if closed:
                kept.close()
                kept.close()
            del kept
            gc.collect()
            self.assertEqual(len(given_back), 1)

    def test_an_unknown_dialect(self) -> None:
        unknown: Any = "xml"
        self.assertRaises(ValueError, Task, DOMAIN, PROBLEM, dialect=unknown)


if __name__ == "__main__":
    unittest.main()
