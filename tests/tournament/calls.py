"""Tests of bin/tournament as a command, without its pages. They need the program plan_judge, and no package."""
import fcntl
import filecmp
import os
import shutil
import signal
import subprocess
import sys
import time

from tests.tournament.units import Folder

TOP = os.path.dirname(os.path.dirname(os.path.dirname(os.path.realpath(__file__))))
EXAMPLE = os.path.join(TOP, "examples", "tournament")
OUTPUTS = os.path.join(EXAMPLE, "outputs")
DOMAIN = "(define (domain lamp) (:predicates (lit) (dark)) (:action light :precondition (dark) :effect (and (lit) (not (dark)))))"
PROBLEM = "(define (problem one) (:domain lamp) (:init (dark)) (:goal (lit)))"
SECONDS = 300


def read(*path):
    """The bytes of a file."""
    with open(os.path.join(*path), "rb") as file:
        return file.read()


class Calls(Folder):
    """Calls of bin/tournament with a site in a folder of their own."""

    def setUp(self):
        super().setUp()
        self.site = os.path.join(self.folder, "site")

    def words(self, *words, jobs="2"):
        """The words of a call that writes no pages."""
        return [sys.executable, os.path.join(TOP, "bin", "tournament"), "--out", self.site, "--no-site", "-j", jobs, *words]

    def call(self, *words, status=0, **environment):
        """Runs a call, and returns what it printed on standard error."""
        done = subprocess.run(self.words(*words), env=dict(os.environ, **environment), capture_output=True, text=True, timeout=SECONDS)
        self.assertEqual((done.returncode, done.stderr.count("Traceback")), (status, 0), done.stderr)
        return done.stderr

    def rows(self):
        """The rows of results.tsv below its head."""
        return [it.split("\t") for it in read(self.site, "results.tsv").decode().splitlines()[1:]]

    def lamp(self, plans):
        """Outputs for one problem: pairs of a planner and the text of its plan."""
        outputs = os.path.join(self.folder, "outputs")
        self.write("outputs/lamp/one/domain.pddl", DOMAIN)
        self.write("outputs/lamp/one/problem.pddl", PROBLEM)
        for planner, text in plans:
            self.write("outputs/lamp/one/%s/sas_plan" % planner, text)
        return outputs

    def counting(self, rest):
        """A program that notes its calls, and then goes on with these lines of sh."""
        real = os.environ["PLAN_JUDGE"]
        text = '#!/bin/sh\n[ "$1" = judge ] || exec "%s" "$@"\necho "$0" >> "%s/calls"\n%s\nexec "%s" "$@"\n' % (real, self.folder, rest, real)
        path = self.write("counting", text)
        os.chmod(path, 0o755)
        return path

    def calls(self):
        """How many times that program judged."""
        path = os.path.join(self.folder, "calls")
        return read(path).count(b"\n") if os.path.exists(path) else 0


class Example(Calls):
    def test_the_outputs_are_what_the_script_makes(self):
        made = os.path.join(self.folder, "made")
        subprocess.run([sys.executable, os.path.join(EXAMPLE, "make"), made], check=True)
        pending = [filecmp.dircmp(made, OUTPUTS)]
        while pending:
            both = pending.pop()
            self.assertEqual((both.left_only, both.right_only, both.diff_files, both.funny_files), ([], [], [], []))
            pending += both.subdirs.values()

    def test_the_results_are_those_worked_out_apart(self):
        apart = subprocess.run([sys.executable, os.path.join(EXAMPLE, "work_out")], check=True, capture_output=True).stdout
        self.assertEqual(read(EXAMPLE, "results.tsv"), apart)
        said = self.call(OUTPUTS, "--reference", os.path.join(EXAMPLE, "reference.tsv"))
        self.assertEqual(read(self.site, "results.tsv"), apart)
        self.assertEqual(said, "tournament: letters p4 is refused: problem line 8 bytes 231-233: UnknownName\n")

    def test_a_manifest_gives_the_same_results(self):
        lines = []
        for domain in sorted(os.listdir(OUTPUTS)):
            for problem in sorted(it for it in os.listdir(os.path.join(OUTPUTS, domain)) if it != "domain.pddl"):
                here = os.path.join(OUTPUTS, domain, problem)
                front = [os.path.join(OUTPUTS, domain, "domain.pddl"), os.path.join(here, "problem.pddl")]
                for planner in "good", "lazy", "faulty":
                    folder = os.path.join(here, planner)
                    plans = sorted(os.listdir(folder)) if os.path.isdir(folder) else []
                    lines += ["\t".join([domain, problem, planner, *front, os.path.join(folder, it)]) for it in plans]
                    lines += [] if plans else ["\t".join([domain, problem, planner, *front, ""])]
        manifest = self.write("manifest.tsv", "\n".join(lines))
        self.call("--manifest", manifest, "--reference", os.path.join(EXAMPLE, "reference.tsv"))
        self.assertEqual(read(self.site, "results.tsv"), read(EXAMPLE, "results.tsv"))


def take_interrupts():
    """Lets a process be interrupted even if the tests run in the background, where a shell has interrupts ignored."""
    signal.signal(signal.SIGINT, signal.SIG_DFL)


class Going(Calls):
    def test_an_interrupted_call_goes_on(self):
        program = self.counting('[ ! -e "%s/block" ] || [ $(wc -l < "%s/calls") -le 5 ] || exec sleep 100' % (self.folder, self.folder))
        block = self.write("block")
        environment = dict(os.environ, PLAN_JUDGE=program)
        process = subprocess.Popen(self.words(OUTPUTS, jobs="1"), env=environment, stdout=subprocess.DEVNULL, stderr=subprocess.PIPE, text=True,
                                   preexec_fn=take_interrupts)
        until = time.time() + SECONDS
        while self.calls() < 6 and time.time() < until:
            time.sleep(0.02)
        process.send_signal(signal.SIGINT)
        said = process.communicate(timeout=SECONDS)[1]
        kept = sum(it.endswith(".json") for _, _, files in os.walk(os.path.join(self.site, "reports")) for it in files)
        self.assertEqual((process.returncode, kept), (130, 5))
        self.assertIn("interrupted: 5 of 20 problems are judged", said)
        self.assertFalse(os.path.exists(os.path.join(self.site, "results.tsv")))
        os.remove(block)
        before = self.calls()
        self.call(OUTPUTS, "--reference", os.path.join(EXAMPLE, "reference.tsv"), PLAN_JUDGE=program)
        self.assertEqual(self.calls() - before, 15)
        self.assertEqual(read(self.site, "results.tsv"), read(EXAMPLE, "results.tsv"))

    def test_only_what_has_changed_is_judged_again(self):
        program = self.counting("")
        outputs = self.lamp([("a", "(light)")])
        shutil.copytree(os.path.join(outputs, "lamp", "one"), os.path.join(outputs, "lamp", "two"))
        self.call(outputs, PLAN_JUDGE=program)
        self.write("outputs/lamp/two/a/sas_plan", "(light) (light)")
        self.call(outputs, PLAN_JUDGE=program)
        self.assertEqual((self.calls(), [it[-1] for it in self.rows()]), (3, ["solved", "failed"]))
        self.call(outputs, "--dialect", "strips", PLAN_JUDGE=program)
        self.assertEqual(self.calls(), 5)

    def test_a_plan_of_the_same_size_and_time_is_another_one(self):
        outputs = self.lamp([("a", "(light)")])
        path = os.path.join(outputs, "lamp", "one", "a", "sas_plan")
        self.call(outputs)
        before = os.stat(path)
        with open(path, "r+") as file:
            file.write("(lught)")
        os.utime(path, ns=(before.st_atime_ns, before.st_mtime_ns))
        after = os.stat(path)
        self.assertEqual((before.st_size, before.st_mtime_ns, before.st_ino), (after.st_size, after.st_mtime_ns, after.st_ino))
        self.call(outputs)
        self.assertEqual([it[-1] for it in self.rows()], ["failed"])

    def test_nothing_is_written_if_nothing_has_changed(self):
        program = self.counting("")
        outputs = self.lamp([("a", "(light)"), ("b", "")])
        self.write("outputs/lamp/one/b/Plan", "")
        files = [os.path.join(self.site, it) for it in ("results.tsv", "results.json", "reports/lamp/one.txt", "reports/lamp/one.json")]
        times, said = [], []
        for _ in range(2):
            said.append(self.call(outputs, PLAN_JUDGE=program))
            times.append([os.stat(it).st_mtime_ns for it in files])
        self.assertEqual((times[0], said[0], self.calls()), (times[1], said[1], 1))
        self.assertIn("b/Plan is passed over", said[0])
        whole = read(files[0])
        for text in b"other", b"":
            with open(files[0], "wb") as file:
                file.write(text)
            self.call(outputs, PLAN_JUDGE=program)
            self.assertEqual((read(files[0]), self.calls()), (whole, 1))

    def test_what_is_not_in_a_plan_counts_as_well(self):
        outputs = self.lamp([("a", "(light)")])
        self.call(outputs)
        self.write("outputs/lamp/one/a/Plan", "(light)")
        self.assertIn("a/Plan is passed over", self.call(outputs))
        self.call(outputs, "--reference", self.write("references.tsv", "lamp\tone\t0.5\n"))
        self.assertEqual([it[7:9] for it in self.rows()], [["0.5", "0.500000"]])
        self.write("outputs/lamp/one/b/run.log")
        self.assertIn("b has no plan at all", self.call(outputs))
        self.assertEqual([it[2] for it in self.rows()], ["a", "b"])

    def test_a_call_that_goes_wrong_is_told_and_made_again(self):
        program = self.counting('[ ! -e "%s/wrong" ] || . "%s/wrong"' % (self.folder, self.folder))
        outputs = self.lamp([("a", "(light)")])
        for text, why in ("echo 'out of memory' >&2; exit 3", "plan_judge ended with status 3: out of memory"), \
                ("echo strange; exit 0", "plan_judge ended with status 0: it printed no report in JSON"):
            self.write("wrong", text)
            said = self.call(outputs, status=1, PLAN_JUDGE=program)
            self.assertEqual(said, "tournament: lamp one is refused: %s\n" % why)
        os.remove(os.path.join(self.folder, "wrong"))
        self.call(outputs, PLAN_JUDGE=program)
        self.assertEqual(([it[-1] for it in self.rows()], self.calls()), (["solved"], 3))


class Shares(Calls):
    def test_shares_give_the_results_of_one_call(self):
        program = self.counting("")
        reference = ["--reference", os.path.join(EXAMPLE, "reference.tsv")]
        for which in "3/3", "1/3", "2/3", "2/3":
            said = self.call(OUTPUTS, "--share", which, PLAN_JUDGE=program)
            self.assertRegex(said, r"tournament: share %s: ([67]) of \1 problems are judged\n\Z" % which)
        self.assertEqual((self.calls(), sorted(os.listdir(self.site))), (20, [".tournament", "reports"]))
        self.call(OUTPUTS, *reference, PLAN_JUDGE=program)
        self.assertEqual((self.calls(), read(self.site, "results.tsv")), (20, read(EXAMPLE, "results.tsv")))
        self.assertEqual([it for _, _, names in os.walk(self.site) for it in names if it.endswith(".new")], [])

    def test_shares_explain_for_the_pages(self):
        program = self.counting("")
        outputs = self.lamp([("a", "(light) (light)")])
        words = [it for it in self.words(outputs, "--share", "1/1") if it != "--no-site"]
        subprocess.run(words, env=dict(os.environ, PLAN_JUDGE=program), check=True, stderr=subprocess.DEVNULL)
        self.assertIn(b"condition does not hold", read(self.site, "reports", "lamp", "one.json"))

    def test_a_share_writes_while_another_call_has_the_site(self):
        """The call that waits for the shares holds the lock of the site."""
        outputs = self.lamp([("a", "(light)")])
        self.call(outputs)
        with open(os.path.join(self.site, ".tournament")) as file:
            fcntl.flock(file, fcntl.LOCK_EX)
            self.assertIn("another call writes", self.call(outputs, status=1))
            self.write("outputs/lamp/one/a/sas_plan", "")
            self.call(outputs, "--share", "1/2")
        self.call(outputs)
        self.assertEqual([it[-1] for it in self.rows()], ["failed"])

    def test_a_share_may_have_no_problem(self):
        said = self.call(self.lamp([("a", "(light)")]), "--share", "2/2")
        self.assertEqual(said, "tournament: share 2/2: 0 of 0 problems are judged\n")
        self.assertEqual(os.listdir(self.site), [".tournament"])

    def test_a_share_that_fails_says_why(self):
        outputs = self.lamp([("a", "(light)")])
        said = self.call(outputs, "--share", "1/1", status=1, PLAN_JUDGE=self.counting("echo 'out of memory' >&2; exit 3"))
        self.assertEqual(said, "tournament: share 1/1: 0 of 1 problems are judged; the first that failed is lamp one: "
                               "plan_judge ended with status 3: out of memory\n")
        self.assertIn("there is no program nowhere", self.call(outputs, "--share", "1/1", status=1, PLAN_JUDGE="nowhere"))
        shutil.rmtree(self.site)
        self.write("site/precious")
        self.assertIn("is not empty, and is no site", self.call(outputs, "--share", "1/1", status=1))
        self.assertEqual(os.listdir(self.site), ["precious"])

    def test_wrong_shares_and_calls(self):
        outputs = self.lamp([("a", "(light)")])
        for words in ["--share", "0/1"], ["--share", "2/1"], ["--share", "1"], ["--share", "1/2/3"], ["--share", "a/b"], ["--share", "-1/2"], \
                ["--share", "1/1", "--slurm"], ["--tasks", "2"], ["--slurm", "--tasks", "0"], ["--slurm", "--slurm=-p x"]:
            self.assertEqual(self.call(outputs, *words, status=2).count("\n"), 1)

    def test_without_slurm(self):
        said = self.call(self.lamp([("a", "(light)")]), "--slurm", status=1, PATH=self.folder)
        self.assertEqual(said, "tournament: there is no program sbatch, and --slurm needs it\n")
        self.assertEqual(self.call(os.path.join(self.folder, "outputs"), "--slurm=-p 'x", status=1).count("\n"), 1)


class Odd(Calls):
    def test_odd_names(self):
        odd = ["a b", "tab\there", "new\nline", "-o", "<b>&\"'", "\udcff\u00e9", "plans 1 valid 1", "n" * 250]
        self.call(self.lamp([(it, "(light)") for it in odd]))
        self.assertEqual([it[-1] for it in self.rows()], ["solved"] * 8)
        self.assertEqual(sorted(it[2] for it in self.rows())[:4], ["-o", "<b>&\"'", "\\xff\u00e9", "a b"])

    def test_more_planners_than_a_call_takes(self):
        self.call(self.lamp([("planner%d" % it, "(light)" if it != 66 else "") for it in range(70)]))
        self.assertEqual([it[-1] for it in self.rows()], ["solved"] * 66 + ["failed"] + ["solved"] * 3)

    def test_files_that_are_missing(self):
        outputs = self.lamp([("a", "(light)")])
        self.write("outputs/lamp/two/problem.pddl", PROBLEM)
        self.write("outputs/lamp/none/domain.pddl", DOMAIN)
        said = self.call(outputs)
        self.assertEqual([(it[1], it[-1]) for it in self.rows()], [
            ("none", "refused: cannot read problem.pddl: No such file or directory"), ("one", "solved"),
            ("two", "refused: cannot read domain.pddl: No such file or directory")])
        self.assertEqual(said.count("is refused"), 2)

    def test_a_problem_that_nobody_has_a_plan_for_is_read_all_the_same(self):
        outputs = self.lamp([("a", "(light)")])
        for name, text in ("two", PROBLEM), ("three", PROBLEM.replace("lit", "lot")):
            self.write("outputs/lamp/%s/problem.pddl" % name, text)
            self.write("outputs/lamp/%s/domain.pddl" % name, DOMAIN)
        self.call(outputs)
        self.assertEqual([(it[1], it[-1].split(" line")[0]) for it in self.rows()], [
            ("one", "solved"), ("three", "refused: problem"), ("two", "no plan")])


class Metrics(Calls):
    def test_other_metrics_are_named_and_not_scored(self):
        outputs = self.lamp([("a", "(light)")])
        metrics = {"two": "(:metric MAXIMIZE (Total-Cost))", "three": "(:metric minimize (total-cost)) ; (:metric maximize (x))\n", "four": ")"}
        for name, text in metrics.items():
            self.write("outputs/lamp/%s/domain.pddl" % name, DOMAIN)
            self.write("outputs/lamp/%s/problem.pddl" % name, PROBLEM.replace("(:goal", text + " (:goal"))
            self.write("outputs/lamp/%s/a/sas_plan" % name, "(light)")
        for dialect in "ipc", "strips":
            said = self.call(outputs, "--dialect", dialect)
            self.assertIn("tournament: lamp two is not scored: the metric is maximize (total-cost)\n", said)
            self.assertEqual([(it[1], it[8], it[9].split(" line")[0]) for it in self.rows()], [
                ("four", "0.000000", "refused: problem"), ("one", "1.000000", "solved"), ("three", "1.000000", "solved"),
                ("two", "-", "not scored: the metric is maximize (total-cost)")])


class PassedOver(Calls):
    def test_there_is_one_line_for_each_planner(self):
        outputs = self.lamp([("a", "(light)"), ("b", "(light)")])
        for path in "a/Plan.1", "a/Plan.2", "a/run/sas_plan", "b/old_plan", "c/run.log":
            self.write("outputs/lamp/one/" + path, "(light)")
        here = os.path.join(outputs, "lamp", "one")
        self.assertEqual(self.call(outputs).splitlines(), [
            "tournament: a: 3 files or folders are passed over, first %s/a/Plan.1: it is not named as plans are" % here,
            "tournament: b: %s/b/old_plan is passed over: it is not named as plans are" % here,
            "tournament: c has no plan at all; files such as %s/c/run.log do not look like plans" % here])
        self.assertEqual([it[2:5] for it in self.rows()], [["a", "1", "1"], ["b", "1", "1"], ["c", "0", "0"]])

    def test_other_names_are_judged_and_compressed_plans_are_not(self):
        outputs = self.lamp([("a", "(light) (light)")])
        for name in "p.soln", "p.SOL", "p.plan", "plan.txt", "plan.ipc", "sas_plan.1.xz":
            self.write("outputs/lamp/one/a/" + name, "(light)")
        path = os.path.join(outputs, "lamp", "one", "a", "sas_plan.1.xz")
        self.assertEqual(self.call(outputs), "tournament: a: %s is passed over: it is compressed: unpack it first\n" % path)
        self.assertEqual([it[3:5] for it in self.rows()], [["6", "5"]])


class Wrong(Calls):
    def test_wrong_calls(self):
        outputs = self.lamp([("a", "(light)")])
        for words in [], [outputs, "--manifest", "m"], [outputs, "-j", "0"], [outputs, "--dialect", "x"], [outputs, "--strange"]:
            self.assertEqual(self.call(*words, status=2).count("\n"), 1)
        for words in [self.folder + "/none"], [os.path.join(outputs, "lamp", "one", "a", "sas_plan")], [outputs, "--reference", "none"], \
                [outputs, "--compare", "a", "z"], ["--manifest", "none"]:
            self.assertEqual(self.call(*words, status=1).count("\n"), 1)

    def test_other_folders_are_left_alone(self):
        outputs = self.lamp([("a", "(light)")])
        self.write("site/precious")
        self.assertIn("is not empty, and is no site", self.call(outputs, status=1))
        self.assertEqual(os.listdir(self.site), ["precious"])
        self.site = os.path.join(outputs, "site")
        self.assertIn("SITE is in FOLDER", self.call(outputs, status=2))
