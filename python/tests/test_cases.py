"""Every case of tests/cases that a call can express: as paths, as texts from several threads, and with many plans in one file."""
from __future__ import annotations

import concurrent.futures
import dataclasses
import os
import subprocess
import unittest
from typing import Any, Dict, List, Optional, Sequence, Union

from plan_judge import Refused, Report, Text, explain, find_program, judge, read_report, write_report

from .given import Case, Word, cases

# The program refuses more than 64 files; this package puts the plans into fewer files instead.
REFUSED_FOR_65_FILES = {"bundles-65-planners", "runs-65-planners-before-domain"}


def keywords(case: Case) -> Dict[str, Any]:
    found: Dict[str, Any] = {}
    if "--dialect" in case.options:
        found["dialect"] = case.options["--dialect"]
    if "--workers" in case.options:
        found["workers"] = int(case.options["--workers"])
    return found


def answer(case: Case, domain: Text, problem: Text, plans: Sequence[Text]) -> Union[Report, Refused]:
    try:
        return judge(domain, problem, plans, **keywords(case))
    except Refused as refused:
        return refused


def content(case: Case, word: str) -> Optional[bytes]:
    """The text of a small file in the case's folder."""
    path = case.folder / word
    return path.read_bytes() if word and path.is_file() and path.parent == case.folder else None


class Cases(unittest.TestCase):
    def compare(self, case: Case, found: Union[Report, Refused]) -> None:
        with self.subTest(case.name):
            if isinstance(found, Report):
                printed = found.text.encode("utf-8", "surrogateescape")
                self.assertEqual((printed, b"", 0), (case.text("stdout"), case.text("stderr"), case.status))
            else:
                line = (str(found) + "\n").encode("utf-8", "surrogateescape")
                self.assertEqual((line, found.status), (case.text("stderr"), case.status))

    def test_paths(self) -> None:
        ran = 0
        self.addCleanup(os.chdir, os.getcwd())
        for case in cases("judge"):
            if case.name not in REFUSED_FOR_65_FILES:
                os.chdir(case.folder)
                plans: List[Text] = [Word(it) for it in case.plans]
                self.compare(case, answer(case, Word(case.options["--domain"]), Word(case.options["--problem"]), plans))
                ran += 1
        self.assertGreater(ran, 1000)

    def test_reports_in_json(self) -> None:
        """What the program prints with --format json is read, and written again byte for byte."""
        ran = 0
        for case in cases("judge"):
            if case.status == 0:
                words = [find_program(), *(case.folder / "args").read_bytes().decode("utf-8", "surrogateescape").splitlines()]
                printed = subprocess.run([*words, "--format", "json"], cwd=case.folder, stdout=subprocess.PIPE, check=True).stdout
                with self.subTest(case.name):
                    found = read_report(printed)
                    self.assertEqual(write_report(found).encode("utf-8", "surrogateescape"), printed)
                    self.assertEqual(found.text.encode("utf-8", "surrogateescape"), case.text("stdout"))
                ran += 1
        self.assertGreater(ran, 500)

    def test_texts_from_several_threads(self) -> None:
        """The texts of the files, from four threads at once. The planners of texts have no names, so they get those of the case."""

        def ask(case: Case) -> Union[None, Report, Refused]:
            domain, problem, *plans = [content(case, it) for it in (case.options["--domain"], case.options["--problem"], *case.plans)]
            texts = [it for it in plans if it is not None]
            if domain is None or problem is None or len(texts) < len(plans):
                return None
            found = answer(case, domain, problem, texts)
            if not isinstance(found, Report):
                return found
            named = tuple(dataclasses.replace(it, name=name) for it, name in zip(found.planners, case.plans))
            return dataclasses.replace(found, planners=named)

        given = [it for it in cases("judge") if it.name not in REFUSED_FOR_65_FILES]
        with concurrent.futures.ThreadPoolExecutor(4) as pool:
            ran = 0
            for case, found in zip(given, pool.map(ask, given)):
                if found is not None:
                    self.compare(case, found)
                    ran += 1
        self.assertGreater(ran, 1000)

    def test_many_texts_in_one_file(self) -> None:
        """The texts are repeated until there are more than 64, all in one file. Each must get the verdict that it gets in a file of its own."""
        ran = 0
        for case in cases("judge"):
            texts = [content(case, it) for it in case.plans]
            if case.name.split("-")[0] in ("plans", "bundles") and case.status == 0 and None not in texts:
                few = [it for it in texts if it is not None]
                times = 65 // len(few) + 1
                found = answer(case, case.folder / "domain.pddl", case.folder / "problem.pddl", few * times)
                with self.subTest(case.name):
                    assert isinstance(found, Report)
                    own = answer(case, case.folder / "domain.pddl", case.folder / "problem.pddl", [case.folder / it for it in case.plans])
                    assert isinstance(own, Report)
                    self.assertEqual([it.verdicts for it in found.planners], [it.verdicts for it in own.planners] * times)
                ran += 1
        self.assertGreater(ran, 100)

    def test_explanations(self) -> None:
        ran = 0
        self.addCleanup(os.chdir, os.getcwd())
        for case in cases("explain", "--trace"):
            if case.text("stdout"):
                os.chdir(case.folder)
                task = Word(case.options["--domain"]), Word(case.options["--problem"])
                found = explain(*task, [Word(it) for it in case.plans], trace="--trace" in case.flags, **keywords(case))
                with self.subTest(case.name):
                    self.assertEqual(found.text.encode("utf-8", "surrogateescape"), case.text("stdout"))
                    self.assertEqual(bool(found), case.status == 0)
                ran += 1
        self.assertGreater(ran, 70)


if __name__ == "__main__":
    unittest.main()
