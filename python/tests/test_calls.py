"""Tests of the calls: what is given, what is raised, and what is left behind."""
from __future__ import annotations

import concurrent.futures
import os
import pickle
import re
import signal
import subprocess
import sys
import tempfile
import time
import unittest
from pathlib import Path
from typing import Any, Callable, List, cast
from unittest import mock

import plan_judge
from plan_judge import Atom, CallFailed, Error, Fails, Named, Plans, ProgramMissing, Refused, Stopped, Stopper, Text, Unreadable, Valid, explain, judge

from .given import DOMAIN, FAULTY, PROBLEM, SHORT, TOP, Word

CALLS: List[Callable[..., object]] = [judge, explain]
COSTED = TOP / "examples" / "haulage"
SLEEPER = "#!/bin/sh\necho $$ > \"$0.pid\"\nexec sleep 100\n"
ECHO = "#!/bin/sh\nprintf '%s\\n' \"$@\" >&2\nexit 3\n"
# An interrupt before the call waits for the program is not what the test is about.
INTERRUPTED = """
import subprocess, sys
from plan_judge import judge

class Waiting(subprocess.Popen):
    def communicate(self, *words):
        open(sys.argv[2], "w").close()
        return super().communicate(*words)

subprocess.Popen = Waiting
judge('(', ')', '(a)', program=sys.argv[1])
"""


class Folder(unittest.TestCase):
    """Tests with a folder of their own, in which all temporary files are made too."""

    def setUp(self) -> None:
        made = tempfile.TemporaryDirectory()
        self.addCleanup(made.cleanup)
        self.folder = Path(made.name)
        self.temporary = self.folder / "temporary files"
        self.temporary.mkdir()
        patch = mock.patch.object(tempfile, "tempdir", str(self.temporary))
        patch.start()
        self.addCleanup(patch.stop)
        self.addCleanup(lambda: self.assertEqual(os.listdir(self.temporary), []))

    def script(self, text: str) -> Path:
        """A program that is a script."""
        path = self.folder / "script"
        path.write_text(text)
        path.chmod(0o755)
        return path


class Given(Folder):
    def test_paths_and_texts(self) -> None:
        texts: List[List[Text]] = [[it, it.read_text(), it.read_bytes()] for it in (DOMAIN, PROBLEM, SHORT)]
        for domain in texts[0]:
            for problem in texts[1]:
                for plan in texts[2]:
                    self.assertEqual(judge(domain, problem, plan).verdict, Valid(12))

    def test_names_of_planners(self) -> None:
        plan = SHORT.read_text()
        listed: List[Text] = [SHORT, plan, plan.encode()]
        given: List[Plans] = [SHORT, plan, listed, iter(listed), {"quick": SHORT, "a/b\n": listed, "none": []}]
        wanted = [[str(SHORT)], ["plan"], [str(SHORT), "plan-2", "plan-3"], [str(SHORT), "plan-2", "plan-3"], ["quick", "a/b\n", "none"]]
        for plans, names in zip(given, wanted):
            report = judge(DOMAIN, PROBLEM, plans)
            self.assertEqual([it.name for it in report.planners], names)
            self.assertTrue(all(report.verdicts))
        self.assertEqual([len(it.verdicts) for it in report.planners], [1, 3, 0])

    def test_a_text_is_never_a_path(self) -> None:
        with self.assertRaises(Refused) as raised:
            judge(str(DOMAIN), PROBLEM, SHORT)
        self.assertEqual(raised.exception.file, "domain")
        self.assertIsInstance(judge(DOMAIN, PROBLEM, str(SHORT)).verdict, Unreadable)

    def test_wrong_types(self) -> None:
        for wrong in (None, 3, [3], {"a": None}, [None], bytearray(b"(a)")):
            with self.assertRaises(TypeError):
                judge(DOMAIN, PROBLEM, cast(Any, wrong))
        with self.assertRaises(TypeError):
            judge(cast(Any, None), PROBLEM, SHORT)

    def test_any_bytes(self) -> None:
        """Comments may contain any byte, and files may have any name."""
        domain = self.folder / os.fsdecode(b"dom\xe9\nain")
        domain.write_bytes(b"; \xff\x00\n" + DOMAIN.read_bytes())
        plan = SHORT.read_bytes() + b"; \xfe"
        bad = os.fsencode(self.folder) + b"/caf\xe9"
        with open(bad, "wb") as file:
            file.write(plan)
        surrogates = plan.decode("utf-8", "surrogateescape")
        report = judge(domain, PROBLEM, [Path(os.fsdecode(bad)), Word(os.fsdecode(bad)), plan, surrogates])
        self.assertEqual(report.verdicts, (Valid(12),) * 4)
        self.assertEqual(report.planners[0].name, os.fsdecode(bad))
        self.assertTrue(explain(domain, PROBLEM, Path(os.fsdecode(bad))))
        self.addCleanup(os.chdir, os.getcwd())
        os.chdir(self.folder)
        self.assertEqual(judge(Path(domain.name), PROBLEM, Path(os.path.basename(os.fsdecode(bad)))).verdict, Valid(12))

    @mock.patch.dict(os.environ, PLAN_JUDGE_LIBRARY="")
    def test_a_folder_of_temporary_files_that_the_program_cannot_be_told(self) -> None:
        odd = self.folder / os.fsdecode(b"\xff")
        odd.mkdir()
        with mock.patch.object(tempfile, "tempdir", str(odd)):
            self.assertTrue(judge(DOMAIN, PROBLEM, SHORT).verdict)
            with self.assertRaisesRegex(ValueError, "a name that is not UTF-8"):
                judge(DOMAIN, PROBLEM, SHORT.read_bytes())
        self.assertEqual(os.listdir(odd), [])

    def test_names_that_begin_with_dashes(self) -> None:
        self.addCleanup(os.chdir, os.getcwd())
        os.chdir(self.folder)
        for name in "-", "--", "--help", "-h", "--domain=x":
            Path(name).write_bytes(SHORT.read_bytes())
            self.assertEqual(judge(DOMAIN, PROBLEM, Path(name)).verdict, Valid(12))
            self.assertTrue(explain(DOMAIN, PROBLEM, Path(name)))
            Path(name).write_bytes(DOMAIN.read_bytes())
            self.assertEqual(judge(Path(name), PROBLEM, SHORT).verdict, Valid(12))

    def test_dialect_and_workers(self) -> None:
        plans = [COSTED / "local.plans", COSTED / "swift.plans"]
        for workers in 1, 32:
            report = judge(COSTED / "domain.pddl", COSTED / "problem.pddl", plans, dialect="ipc", workers=workers)
            self.assertEqual([(it.best, str(it.cost)) for it in report.planners], [(9, "101/2"), (8, "45")])
        with self.assertRaises(Refused) as raised:
            judge(COSTED / "domain.pddl", COSTED / "problem.pddl", plans)
        self.assertEqual((raised.exception.kind, raised.exception.line), ("Unsupported", 13))
        for wrong in 0, 33, -1:
            with self.assertRaisesRegex(ValueError, "workers is 1 to 32"):
                judge(DOMAIN, PROBLEM, SHORT, workers=wrong)
        for call in CALLS:
            with self.assertRaisesRegex(ValueError, "the dialect is strips, ipc or adl"):
                call(DOMAIN, PROBLEM, SHORT, dialect=cast(Any, "pddl"))


class Many(Folder):
    def test_65536_plans_and_one_more(self) -> None:
        plans = ["(a)"] * 65_535 + ["(embark red north"]
        verdicts = judge(DOMAIN, PROBLEM, plans).verdicts
        self.assertEqual(len(verdicts), 65_536)
        self.assertEqual(verdicts[0], verdicts[-2])
        self.assertEqual(verdicts[-1], Unreadable(1))
        with self.assertRaisesRegex(ValueError, "too many for one call: more than 65536 plans"):
            judge(DOMAIN, PROBLEM, plans + [""])
        with self.assertRaisesRegex(ValueError, "too many for one call: more than 65536 plans"):
            judge(DOMAIN, PROBLEM, "---\n" * 65_536)

    def test_no_plans(self) -> None:
        for none in (), [], {}, {"a": []}:
            with self.assertRaisesRegex(ValueError, "there are no plans"):
                judge(DOMAIN, PROBLEM, cast(Plans, none))

    def test_many_files(self) -> None:
        """Paths and texts of several planners in one file, with separators in them and without newlines at their ends."""
        part = self.folder / "part"
        part.write_bytes(b"(embark red north)\n--- \t\r\n(embark red north\n---")
        report = judge(DOMAIN, PROBLEM, {"a": [part] * 40, "b": [SHORT, "---", "(x\n"] * 20, "c": []})
        three = (judge(DOMAIN, PROBLEM, "(embark red north)").verdict, Unreadable(2), judge(DOMAIN, PROBLEM, "").verdict)
        self.assertEqual(report.planners[0].verdicts, three * 40)
        self.assertEqual(report.planners[1].verdicts, (Valid(12), three[2], three[2], Unreadable(2)) * 20)
        self.assertEqual(report.planners[2].verdicts, ())

    def test_large_files(self) -> None:
        """65 texts of 260 KB fill more than one file; of 16 MiB, more than 64; a file above 16 MiB is refused."""
        text = SHORT.read_bytes() + b";" * 260_000
        self.assertEqual(judge(DOMAIN, PROBLEM, [text] * 65).verdicts, (Valid(12),) * 65)
        # Without newlines and separators the three would fit into one file.
        thirds = judge(DOMAIN, PROBLEM, [b";" * 5_592_402] * 3).verdicts
        self.assertEqual(thirds, judge(DOMAIN, PROBLEM, [""] * 3).verdicts)
        largest = b";" * 16_777_215 + b"\n"
        with self.assertRaisesRegex(ValueError, "more than 64 files of 16777216 bytes"):
            judge(DOMAIN, PROBLEM, [largest] * 65)
        large = self.folder / "large"
        large.write_bytes(largest + b"\n")
        for plans in [large], [large] * 65:
            with self.assertRaises(Refused) as raised:
                judge(DOMAIN, PROBLEM, plans)
            self.assertEqual((str(raised.exception), raised.exception.file), ("%s is too large" % large, "plan"))

    def test_threads(self) -> None:
        """Each thread gets the answer to its own question."""

        def ask(steps: int) -> bool:
            report = judge(DOMAIN.read_text(), PROBLEM.read_text(), "(embark red north)\n" * steps + "(a)")
            return report.verdict == (Fails(2, embark, "missing", None, lacks) if steps > 1 else Fails(2, other, "unknown action"))

        embark, other = plan_judge.Action("embark", ("red", "north")), plan_judge.Action("a")
        lacks = (Atom("ashore", ("red", "north")), Atom("deck-free"))
        with concurrent.futures.ThreadPoolExecutor(8) as pool:
            self.assertTrue(all(pool.map(ask, [1, 2, 3, 4] * 16)))


class Explanations(Folder):
    def test_a_text_goes_by_the_name_of_its_planner(self) -> None:
        plan = FAULTY.read_text()
        for name, shown in ("mine", "mine"), ("my planner", "my-planner"), ("../a", "-.-a"), ("domain", "domain-2"), ("x" * 300, "x" * 200), ("a~b", "a~b"):
            found = explain(DOMAIN.read_text(), PROBLEM, {name: plan})
            self.assertFalse(found)
            self.assertIn("%s:2:1: plan 1 fails at step 2, (embark blue north)" % shown, found.text)
            self.assertIn("deleted it (%s:1)" % shown, found.text)
            self.assertNotIn(str(self.temporary), str(found))
        two = explain(DOMAIN, PROBLEM, {"mine": [plan, plan]}).text
        self.assertIn("mine.1:2:1:", two)
        self.assertIn("mine.2:2:1:", two)

    def test_faults_of_texts(self) -> None:
        found = explain("(define", PROBLEM)
        self.assertTrue(found.text.startswith("domain:1:1: "), found.text)
        self.assertFalse(found)
        self.assertFalse(explain(self.folder / "nowhere", PROBLEM, SHORT))

    def test_named_texts_go_by_their_names(self) -> None:
        task = Named("d.pddl", DOMAIN.read_bytes()), Named("p.pddl", PROBLEM.read_text())
        self.assertIn("sas_plan.3:2:1: plan 1 fails", explain(*task, Named("sas_plan.3", FAULTY.read_text())).text)
        both = explain(*task, {"quick": [Named("one", FAULTY.read_text()), FAULTY.read_text(), Named("d.pddl", "(a)")]}).text
        for name in "one:2:1", "quick.2:2:1", "d.pddl-2:1:2":
            self.assertIn(name, both)
        self.assertTrue(explain(Named("d.pddl", "(define"), task[1]).text.startswith("d.pddl:1:1: "))

    def test_names_of_texts_are_those_of_planners(self) -> None:
        report = judge(DOMAIN, PROBLEM, [Named("short", SHORT.read_text()), SHORT.read_text()])
        self.assertEqual([(it.name, it.verdicts) for it in report.planners], [("short", (Valid(12),)), ("plan-2", (Valid(12),))])
        self.assertEqual(judge(DOMAIN, PROBLEM, Named("short", SHORT.read_text())).planners[0].name, "short")

    def test_without_plans_and_with_a_trace(self) -> None:
        self.assertTrue(explain(DOMAIN, PROBLEM))
        plan = SHORT.read_text()
        self.assertGreater(len(explain(DOMAIN, PROBLEM, plan, trace=True).text), len(explain(DOMAIN, PROBLEM, plan).text))


class Errors(Folder):
    def refused(self, domain: Text, problem: Text, plans: Plans) -> Refused:
        with self.assertRaises(Refused) as raised:
            judge(domain, problem, plans)
        return raised.exception

    def test_faults(self) -> None:
        domain = DOMAIN.read_text().replace("(:predicates", "\n(:predicats", 1)
        found = self.refused(domain, PROBLEM, SHORT)
        start = domain.index(":predicats")
        line = domain[:start].count("\n") + 1
        self.assertEqual((found.file, found.kind, found.line, found.span), ("domain", "Unsupported", line, (start, start + len(":predicats"))))
        self.assertEqual(str(found), "domain line %d bytes %d-%d: Unsupported" % (line, start, start + len(":predicats")))
        found = self.refused(DOMAIN, "", SHORT)
        self.assertEqual((found.file, found.kind, found.line, found.span), ("problem", "Expected", 1, (0, 0)))

    def test_files_that_cannot_be_read(self) -> None:
        nowhere = self.folder / "no where \n"
        for file, found in (
            ("domain", self.refused(nowhere, nowhere, nowhere)),
            ("problem", self.refused(DOMAIN, nowhere, nowhere)),
            ("plan", self.refused(DOMAIN, PROBLEM, [SHORT, nowhere])),
            ("plan", self.refused(DOMAIN, PROBLEM, [SHORT] * 64 + [nowhere])),
        ):
            self.assertEqual(str(found), "cannot read %s" % nowhere)
            self.assertEqual((found.file, found.kind, found.line, found.span), (file, "cannot read", None, None))

    def test_texts_that_are_too_large(self) -> None:
        found = self.refused(b";" * 16_777_217, PROBLEM, SHORT)
        self.assertEqual((str(found), found.file, found.kind), ("domain is too large", "domain", "too large"))

    def test_program_missing(self) -> None:
        broken = self.folder / "broken"
        broken.write_text("no program\n")
        unfit = self.script("\x7fELF")
        for program in self.folder / "nothing", broken, self.folder, unfit:
            for call in CALLS:
                with self.assertRaisesRegex(ProgramMissing, re.escape(str(program)) + ".*set the environment variable PLAN_JUDGE"):
                    call(DOMAIN, PROBLEM, SHORT, program=program)

    @mock.patch.dict(os.environ, PLAN_JUDGE_LIBRARY="")
    def test_where_the_program_is_found(self) -> None:
        """The argument comes before PLAN_JUDGE, and PLAN_JUDGE before the PATH."""
        names = ["argument", "variable", "plan_judge"]
        for status, name in enumerate(names, 5):
            self.script("#!/bin/sh\nexit %d\n" % status).rename(self.folder / name)
        path = "%s:%s" % (self.folder, os.environ["PATH"])
        argument, variable = self.folder / names[0], str(self.folder / names[1])
        for given, set_to, status in (argument, variable, 5), (None, variable, 6), (None, "", 7):
            with mock.patch.dict(os.environ, PATH=path, PLAN_JUDGE=set_to), self.assertRaises(CallFailed) as raised:
                judge(DOMAIN, PROBLEM, SHORT, program=given)
            self.assertEqual(raised.exception.status, status)
        with mock.patch.dict(os.environ, PATH=str(self.temporary), PLAN_JUDGE=""), self.assertRaisesRegex(ProgramMissing, "no program plan_judge"):
            judge(DOMAIN, PROBLEM, SHORT)

    def test_other_answers(self) -> None:
        for text, status, message in (
            ("echo out of memory >&2; exit 3", 3, "out of memory"),
            ("echo cannot write the report >&2; exit 4", 4, "cannot write the report"),
            ("echo something else >&2; exit 1", 1, "something else"),
            ("kill -9 $$", -9, ""),
            ("printf '\\377' >&2; exit 5", 5, "\udcff"),
            ("exit 0", 0, "it printed no report in JSON"),
            ("echo domain d problem p", 0, "it printed no report in JSON"),
            ("echo '{\"type\":\"run\"}'", 0, "it printed no report in JSON"),
            ("echo '{\"type\":\"run\",\"domain\":\"d\",\"problem\":\"p\"}'", 0, "it printed a report on other plans"),
        ):
            with self.subTest(text), self.assertRaises(CallFailed) as raised:
                judge(DOMAIN, PROBLEM, SHORT, program=self.script("#!/bin/sh\n%s\n" % text))
            self.assertEqual((raised.exception.status, raised.exception.message), (status, message))
            with self.subTest(text), self.assertRaises(CallFailed) as raised:
                explain(DOMAIN, PROBLEM, SHORT, program=self.script("#!/bin/sh\n%s\n" % text.replace("echo", "echo >&2")))
            self.assertEqual(raised.exception.status, status)

    def test_the_words_of_the_call(self) -> None:
        program = self.script(ECHO)
        task = ["--dialect=ipc", "--domain=%s" % DOMAIN, "--problem=%s" % PROBLEM, "--", str(SHORT), str(FAULTY)]
        with self.assertRaises(CallFailed) as raised:
            judge(DOMAIN, PROBLEM, [SHORT, FAULTY], dialect="ipc", workers=7, program=program)
        self.assertEqual(raised.exception.message.split("\n"), ["judge", "--format=json", "--workers=7", *task])
        with self.assertRaises(CallFailed) as raised:
            explain(DOMAIN, PROBLEM, [SHORT, FAULTY], dialect="ipc", trace=True, program=program)
        self.assertEqual(raised.exception.message.split("\n"), ["explain", "--trace", *task])

    def test_files_of_paths_are_joined_if_there_are_more_than_64(self) -> None:
        program = self.script(ECHO)
        for count, words in (64, [str(SHORT)] * 64), (65, ["plans"]):
            with self.assertRaises(CallFailed) as raised:
                judge(DOMAIN, PROBLEM, [SHORT] * count, program=program)
            self.assertEqual(raised.exception.message.split("\n--\n")[1].split("\n"), words)

    def test_more_files_than_a_command_line_can_name(self) -> None:
        with self.assertRaisesRegex(ValueError, "too many for one call"):
            explain(DOMAIN, PROBLEM, [Word("x" * 100_000)] * 80)

    def test_any_bytes_in_an_explanation(self) -> None:
        self.assertEqual(explain(DOMAIN, PROBLEM, program=self.script("#!/bin/sh\nprintf '\\377\\n'\n")).text, "\udcff\n")

    def test_a_report_on_other_plans_of_many(self) -> None:
        """65 plans in one file, and a report on one."""
        records = ['{"type":"run","domain":"d","problem":"p"}', '{"type":"plan","verdict":"unreadable","line":1}',
                   '{"type":"planner","planner":"a","plans":1}']
        program = self.script("#!/bin/sh\nprintf '%s\\n' " + " ".join("'%s'" % it for it in records))
        self.assertEqual(judge(DOMAIN, PROBLEM, "(a", program=program).verdict, Unreadable(1))
        with self.assertRaises(CallFailed) as raised:
            judge(DOMAIN, PROBLEM, ["(a"] * 65, program=program)
        self.assertEqual((raised.exception.status, raised.exception.message), (0, "it printed a report on other plans"))

    def test_errors_can_be_pickled(self) -> None:
        given: List[Error] = [Refused("line", "plan", "kind", 2, (3, 4)), ProgramMissing("none"), CallFailed(3, "out of memory")]
        for error in given:
            again = pickle.loads(pickle.dumps(error))
            self.assertEqual((type(again), str(again), vars(again)), (type(error), str(error), vars(error)))


class Stoppers(Folder):
    def test_calls_are_ended_from_another_thread(self) -> None:
        program, stopper = self.script(SLEEPER), Stopper()
        told = Path(str(program) + ".pid")
        with concurrent.futures.ThreadPoolExecutor(2) as pool:
            calls = [pool.submit(it, DOMAIN, PROBLEM, "(a)", program=program, stopper=stopper) for it in CALLS]
            end = time.monotonic() + 20
            while not (told.exists() and told.read_text().endswith("\n")):
                self.assertLess(time.monotonic(), end)
                time.sleep(0.01)
            stopper.stop()
            for call in calls:
                self.assertIsInstance(call.exception(timeout=20), Stopped)
        with self.assertRaises(Stopped):
            judge(DOMAIN, PROBLEM, "(a)", stopper=stopper)
        self.assertEqual(os.listdir(self.temporary), [])


class Interrupts(Folder):
    def test_an_interrupt_ends_the_program_and_removes_the_files(self) -> None:
        program = self.script(SLEEPER)
        told, waits = Path(str(program) + ".pid"), self.folder / "waits"
        settings = dict(os.environ, TMPDIR=str(self.temporary), PYTHONPATH=str(TOP / "python"))
        caller = subprocess.Popen([sys.executable, "-B", "-c", INTERRUPTED, program, waits], env=settings, stderr=subprocess.PIPE)
        end = time.monotonic() + 20
        while not (waits.exists() and told.exists() and told.read_text().endswith("\n")):
            self.assertLess(time.monotonic(), end)
            time.sleep(0.01)
        self.assertEqual(len(os.listdir(self.temporary)), 1)
        caller.send_signal(signal.SIGINT)
        _, said = caller.communicate(timeout=20)
        self.assertIn(b"KeyboardInterrupt", said)
        self.assertEqual(os.listdir(self.temporary), [])
        with self.assertRaises(ProcessLookupError):
            os.kill(int(told.read_text()), 0)


class Version(unittest.TestCase):
    def test_the_version_is_that_of_the_program(self) -> None:
        source = (TOP / "crates" / "command_line" / "src" / "lib.rt").read_text()
        stated = re.search(r'^const VERSION: &str = "(.*)";$', source, re.MULTILINE)
        if stated is None:
            self.skipTest("crates/command_line/src/lib.rt has no line `const VERSION: &str = ..;`")
        self.assertEqual(plan_judge.__version__, stated.group(1))


if __name__ == "__main__":
    unittest.main()
