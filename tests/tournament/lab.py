"""Tests of bin/tournament --lab, with experiments as Lab leaves them."""
import json
import lzma
import os
import re

from tests.tournament.calls import DOMAIN, EXAMPLE, OUTPUTS, PROBLEM, Calls, read
from tournament import entries, lab

STATIC = "static-properties"


class Experiment(Calls):
    """Tests that write the folder of an experiment."""

    def setUp(self):
        super().setUp()
        self.top, self.count = os.path.join(self.folder, "exp"), 0

    def run_of(self, algorithm, domain="lamp", problem="one", plans=(), files=(DOMAIN, PROBLEM), **more):
        """Writes a run whose plans are pairs of a name and a text, and returns its folder."""
        self.count += 1
        number = self.count - 1
        run = "exp/runs-%05d-%05d/%05d" % (number // 100 * 100 + 1, number // 100 * 100 + 100, self.count)
        found = {"algorithm": algorithm, "domain": domain, "problem": problem, "id": [algorithm, domain, problem], "run_dir": run[4:]}
        self.write(run + "/" + STATIC, json.dumps({**found, **more}, indent=2))
        self.write(run + "/driver.log", "")
        for name, text in zip(("domain.pddl", "problem.pddl"), files):
            self.write(run + "/" + name, text)
        for name, text in plans:
            self.write(run + "/" + name, text)
        return os.path.join(self.folder, run)

    def wrong(self, words):
        """Checks that the experiment is refused in one line with these words."""
        with self.assertRaisesRegex(entries.Wrong, words):
            lab.from_lab(self.top)
        self.assertEqual(self.call("--lab", self.top, status=1).count("\n"), 1)


class Runs(Experiment):
    def test_an_experiment_gives_the_results_of_its_folder(self):
        """The example as an experiment, whose files are links to those of the example as Lab's are, so that all runs share them."""
        for algorithm in "good", "lazy", "faulty":
            for domain in sorted(os.listdir(OUTPUTS)):
                for problem in sorted(it for it in os.listdir(os.path.join(OUTPUTS, domain)) if it != "domain.pddl"):
                    here = os.path.join(OUTPUTS, domain, problem)
                    run = self.run_of(algorithm, domain, problem, files=())
                    os.symlink(os.path.relpath(os.path.join(OUTPUTS, domain, "domain.pddl"), run), os.path.join(run, "domain.pddl"))
                    os.symlink(os.path.relpath(os.path.join(here, "problem.pddl"), run), os.path.join(run, "problem.pddl"))
                    folder = os.path.join(here, algorithm)
                    for name in sorted(os.listdir(folder)) if os.path.isdir(folder) else []:
                        self.write(os.path.relpath(run, self.folder) + "/" + name, read(folder, name))
        self.assertEqual(self.count, 60)
        said = self.call("--lab", self.top, "--reference", os.path.join(EXAMPLE, "reference.tsv"))
        self.assertEqual(read(self.site, "results.tsv"), read(EXAMPLE, "results.tsv"))
        self.assertEqual(said, "tournament: letters p4 is refused: problem line 8 bytes 231-233: UnknownName\n")

    def test_what_is_in_a_run(self):
        run = self.run_of("a", plans=[("sas_plan.10", ""), ("sas_plan.2", ""), ("plan.ipc", ""), ("output.sas", ""), ("planner.py", "")])
        self.run_of("b", plans=[("sas_plan.1.xz", ""), ("run.log", ""), ("logs/sas_plan", "")])
        self.run_of("c", problem="two")
        first, second = lab.from_lab(self.top)
        self.assertEqual(first.plans, {"a": [os.path.join(run, it) for it in ("plan.ipc", "sas_plan.2", "sas_plan.10")], "b": []})
        self.assertEqual([(os.path.basename(path), why) for path, why in first.passed["b"]],
                         [("sas_plan.1.xz", "it is compressed: unpack it first")])
        self.assertEqual((second.problem, second.plans, second.passed), ("two", {"c": []}, {}))

    def test_runs_that_have_not_begun_are_named(self):
        self.run_of("a", plans=[("sas_plan", "(light)")])
        for problem in "one", "two":
            os.remove(os.path.join(self.run_of("b", problem=problem), "driver.log"))
        self.assertIn("b: 2 files or folders are passed over, first %s/runs-00001-00100/00002: the run has not begun\n" % self.top,
                      self.call("--lab", self.top))
        self.assertEqual([it[-1] for it in self.rows()], ["solved", "no plan", "no plan", "no plan"])

    def test_properties_of_both_files(self):
        """An old experiment has all in properties; in a new one a parser adds to them; both may be compressed."""
        for algorithm in "old", "new", "packed":
            run = self.run_of(algorithm, plans=[("sas_plan", "(light)")])
            path = os.path.join(run, STATIC)
            if algorithm == "new":
                self.write(os.path.relpath(run, self.folder) + "/properties", json.dumps({"coverage": 1, "cost": 1.5, "algorithm": "newer"}))
            elif algorithm == "old":
                os.rename(path, os.path.join(run, "properties"))
            else:
                with lzma.open(path + ".xz", "wb") as file:
                    file.write(read(path))
                os.remove(path)
        self.call("--lab", self.top)
        self.assertEqual([it[2] for it in self.rows()], ["newer", "old", "packed"])

    def test_another_path_of_the_same_text_is_accepted(self):
        self.run_of("a", plans=[("sas_plan", "(light)")])
        other = self.run_of("b", plans=[("sas_plan", "")])
        self.call("--lab", self.top)
        self.assertEqual([it[-1] for it in self.rows()], ["solved", "failed"])
        self.write(os.path.relpath(other, self.folder) + "/domain.pddl", DOMAIN + " ")
        self.wrong("%s differs from .*00001/domain.pddl, and both are for domain lamp, problem one$" % re.escape(other + "/domain.pddl"))
        os.remove(os.path.join(other, "domain.pddl"))
        self.wrong("cannot be compared: cannot read %s: No such file or directory" % re.escape(other + "/domain.pddl"))

    def test_a_manifest_may_name_copies(self):
        rows = [self.run_of(it, plans=[("sas_plan", "(light)")]) for it in "ab"]
        text = "".join("\t".join(["lamp", "one", name, run + "/domain.pddl", run + "/problem.pddl", run + "/sas_plan"]) + "\n"
                       for name, run in zip("ab", rows))
        self.call("--manifest", self.write("m.tsv", text))
        self.assertEqual([it[-1] for it in self.rows()], ["solved", "solved"])
        self.write(os.path.relpath(rows[1], self.folder) + "/problem.pddl", PROBLEM + " ")
        said = self.call("--manifest", os.path.join(self.folder, "m.tsv"), status=1)
        self.assertRegex(said, r"m.tsv line 2: .*00002/problem.pddl differs from .*00001/problem.pddl, and both are for domain lamp, problem one\n")


class Wrong(Experiment):
    def test_other_folders(self):
        self.wrong("exp is no experiment of Lab: there is no such folder")
        os.makedirs(self.top + "/runs-00001-00100")
        self.wrong(r"it has no folder runs-\*/\*")
        os.rmdir(self.top + "/runs-00001-00100")
        self.write("exp/properties", "{}")
        self.wrong("without -eval")

    def test_runs_without_properties(self):
        run = self.run_of("a")
        os.remove(os.path.join(run, STATIC))
        self.wrong("%s is no run of Lab: it has neither static-properties nor properties" % run)

    def test_properties_that_are_missing_or_no_names(self):
        path = os.path.join(self.run_of("a"), STATIC)
        for text, words in ('{"domain": "d", "problem": "p"}', "there is no property algorithm"), \
                ('{"domain": "d", "problem": 3, "algorithm": "a"}', "the property problem is no name: 3"), \
                ('{"domain": "", "problem": "p", "algorithm": "a"}', 'the property domain is no name: ""'), \
                ("[]", "is no object in JSON"), ('{"domain":\n oops', "line 2 column 2 is not JSON: Expecting value"), \
                (b"\xff", "is not JSON"), (b"", "line 1 column 1 is not JSON"), (b"[" * 100000, "is not JSON: maximum recursion"):
            self.write(os.path.relpath(path, self.folder), text)
            self.wrong("%s.*%s" % (path, words))

    def test_two_runs_of_one_algorithm(self):
        self.run_of("a")
        self.run_of("a")
        self.wrong("00001 and .*00002 are runs of the same algorithm a on the same problem, lamp one")

    def test_calls(self):
        self.run_of("a")
        for words in ["--lab", self.top, self.folder], ["--lab", self.top, "--manifest", "m"], ["--lab"], ["--lab", "a", "--lab", "b"]:
            self.assertEqual(self.call(*words, status=2).count("\n"), 1)
