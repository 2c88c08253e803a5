"""Tests of the calls of the library, beside those of the program. PLAN_JUDGE_LIBRARY names the library; without it they are skipped."""
from __future__ import annotations

import concurrent.futures
import os
import unittest
from typing import Any, Dict, List, Tuple
from unittest import mock

from plan_judge import CallFailed, Plans, ProgramMissing, Refused, Report, Stopper, Task, Text, Valid, explain, find_library, find_program, judge
from plan_judge.library import Library, _Answer, _File, _text, library

from .given import DOMAIN, FAULTY, PROBLEM, SHORT, TOP, Word, cases

THREADS, CALLS = 8, 10_000
LAMP = TOP / "examples" / "lamp"


def answer(call: Any, *words: Any, **options: Any) -> Tuple[str, Any]:
    """What a call returns or raises."""
    try:
        return "returned", call(*words, **options)
    except (Refused, ValueError) as error:
        return type(error).__name__, (str(error), vars(error))


def by_task(domain: Text, problem: Text, plans: Plans, **options: Any) -> Report:
    """What a task judges that is made for these plans alone."""
    with Task(domain, problem, **options) as task:
        return task.judge(plans)


def kinds(*found: Tuple[str, Any]) -> List[Any]:
    """What calls returned, or the kinds of what they raised."""
    return [it if it[0] == "returned" else it[0] for it in found]


@unittest.skipUnless(os.environ.get("PLAN_JUDGE_LIBRARY"), "there is no library")
class Both(unittest.TestCase):
    """The library answers as the program does."""

    def test_every_case(self) -> None:
        compared = 0
        self.addCleanup(os.chdir, os.getcwd())
        for command, call in ("judge", judge), ("explain", explain):
            for case in cases(command, *(["--trace"] if command == "explain" else [])):
                os.chdir(case.folder)
                options: Dict[str, Any] = {"dialect": case.options["--dialect"]} if "--dialect" in case.options else {}
                if "--trace" in case.flags:
                    options["trace"] = True
                words: List[Any] = [Word(case.options["--domain"]), Word(case.options["--problem"]), [Word(it) for it in case.plans]]
                with self.subTest(case.name):
                    by_program = answer(call, *words, program=find_program(), **options)
                    self.assertEqual(answer(call, *words, **options), by_program)
                    if call is judge:
                        for program in None, find_program():
                            self.assertEqual(*kinds(answer(by_task, *words, program=program, **options), by_program))
                compared += 1
        self.assertGreater(compared, 1400)
        print("%d calls compared with the program" % compared)

    def test_plans_and_names_of_all_kinds(self) -> None:
        text = SHORT.read_text()
        given: List[Plans] = [
            text, "", "(a", SHORT, FAULTY, [text, SHORT, FAULTY] * 30, {"a": [text, "---\n", "(x"], "b": []}, [b"\xff"], {"a\nb": text}, Word("-"), Word(os.devnull),
            Word("/"), [Word("none")] * 3,
        ]
        tasks: List[Tuple[Text, Text]] = [(DOMAIN, PROBLEM), (DOMAIN.read_bytes(), PROBLEM.read_text()), ("(", PROBLEM), (DOMAIN, b""), (Word("none"), PROBLEM)]
        for task in tasks:
            for plans in given:
                for call in judge, explain:
                    with self.subTest(task=task, plans=plans, call=call):
                        self.assertEqual(answer(call, *task, plans), answer(call, *task, plans, program=find_program()))

    def test_threads(self) -> None:
        """Calls of several threads at once are answered as one after another."""
        task = (LAMP / "domain.pddl").read_bytes(), (LAMP / "problem.pddl").read_bytes()
        plans = [b"(light)\n" * count + end for count in range(5) for end in (b"", b"(light", b"(dark)\n", b"---\n(light)\n")]
        wanted = [judge(*task, it) for it in plans], [explain(*task, it) for it in plans]

        def ask(first: int) -> int:
            wrong = 0
            for number in range(first, first + CALLS):
                at = number % len(plans)
                wrong += judge(*task, plans[at]) != wanted[0][at] if number % 2 else explain(*task, plans[at]) != wanted[1][at]
            return wrong

        with concurrent.futures.ThreadPoolExecutor(THREADS) as pool:
            self.assertEqual(list(pool.map(ask, range(THREADS))), [0] * THREADS)

    def test_threads_with_tasks(self) -> None:
        """Tasks of several threads, and one task that they share, judge each plan as if it were the only one."""
        texts = (LAMP / "domain.pddl").read_bytes(), (LAMP / "problem.pddl").read_bytes()
        plans = [b"(light)\n" * count + end for count in range(5) for end in (b"", b"(light", b"(dark)\n", b"---\n(light)\n")]
        wanted = [judge(*texts, it, program=find_program()) for it in plans]

        def ask(task: Task, calls: int) -> int:
            return sum(task.judge(plans[number % len(plans)]) != wanted[number % len(plans)] for number in range(calls))

        def ask_own(_: int) -> int:
            with Task(*texts) as task:
                return ask(task, CALLS)

        with Task(*texts) as shared, concurrent.futures.ThreadPoolExecutor(THREADS) as pool:
            self.assertEqual(list(pool.map(ask_own, range(THREADS))), [0] * THREADS)
            self.assertEqual(list(pool.map(lambda _: ask(shared, 100), range(THREADS))), [0] * THREADS)


@unittest.skipUnless(os.environ.get("PLAN_JUDGE_LIBRARY"), "there is no library")
class Which(unittest.TestCase):
    """Which of the two answers a call."""

    def by(self, **options: Any) -> str:
        """Which one does, if the program is missing."""
        with mock.patch.dict(os.environ, PATH=str(LAMP)):
            try:
                return "library" if judge(DOMAIN, PROBLEM, SHORT, **options).verdict == Valid(12) else "neither"
            except ProgramMissing:
                return "program"

    def test_the_order(self) -> None:
        name = os.environ["PLAN_JUDGE_LIBRARY"]
        with mock.patch.dict(os.environ, PLAN_JUDGE="nowhere"):
            self.assertEqual(find_library(), name)
            self.assertEqual(self.by(), "library")
            self.assertEqual(self.by(stopper=Stopper()), "program")
            self.assertEqual(self.by(program="nowhere"), "program")
        with mock.patch.dict(os.environ, PLAN_JUDGE_LIBRARY="", PLAN_JUDGE=""):
            self.assertIsNone(find_library())
            self.assertEqual(self.by(), "program")
        with mock.patch.dict(os.environ, PLAN_JUDGE="nowhere"):
            del os.environ["PLAN_JUDGE_LIBRARY"]
            self.assertEqual(self.by(), "program")

    def test_files_that_only_the_program_can_explain(self) -> None:
        with mock.patch.dict(os.environ, PLAN_JUDGE="nowhere"):
            self.assertTrue(explain(DOMAIN, PROBLEM, SHORT))
            with self.assertRaises(ProgramMissing):
                explain(DOMAIN, PROBLEM, Word("none"))

    def test_another_file(self) -> None:
        for name in str(DOMAIN), "/nowhere", "libc.so.6":
            with mock.patch.dict(os.environ, PLAN_JUDGE_LIBRARY=name), self.assertRaisesRegex(ProgramMissing, "the library .* cannot be loaded"):
                judge(DOMAIN, PROBLEM, SHORT)


class Answers(unittest.TestCase):
    def test_a_text_that_does_not_fit_at_first(self) -> None:
        found = library() if os.environ.get("PLAN_JUDGE_LIBRARY") else None
        if found is None:
            self.skipTest("there is no library")
        assert isinstance(found, Library)
        plan = b"(a)\n---\n" * 1000
        report = judge(DOMAIN, PROBLEM, plan)
        with mock.patch("plan_judge.library.LARGEST_FIRST", 10):
            self.assertEqual(judge(DOMAIN, PROBLEM, plan), report)

    def test_no_memory(self) -> None:
        for status, message in (3, "out of memory"), (2, ""):
            with self.assertRaises(CallFailed) as raised:
                _text(lambda *words: _Answer(status, 0), [_File(b"a", 1, b"", 0)])
            self.assertEqual((raised.exception.status, raised.exception.message), (status, message))


if __name__ == "__main__":
    unittest.main()
