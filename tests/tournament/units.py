"""Tests of the parts of bin/tournament that need neither a program nor a package."""
import concurrent.futures
import json
import os
import tempfile
import unittest
from fractions import Fraction
from unittest import mock

from plan_judge import Atom, CallFailed, MissesGoal, Planner, Report, Unreadable, Valid
from tournament import entries, exact, found, metric, names, plans, scores, store, tables
from tournament.judging import Judge


class Folder(unittest.TestCase):
    """Tests that write files into a folder of their own."""

    def setUp(self):
        folder = tempfile.TemporaryDirectory()
        self.addCleanup(folder.cleanup)
        self.folder = folder.name

    def write(self, path, data=b""):
        """Writes a file, and returns its path."""
        whole = os.path.join(self.folder, path)
        os.makedirs(os.path.dirname(whole), exist_ok=True)
        with open(whole, "wb") as file:
            file.write(data if isinstance(data, bytes) else data.encode())
        return whole


class Names(unittest.TestCase):
    def test_numbers_sort_as_numbers(self):
        given = ["plan_10", "plan_2", "sas_plan.10", "sas_plan.9", "sas_plan", "plan"]
        self.assertEqual(sorted(given, key=names.numeric_order), ["plan", "plan_2", "plan_10", "sas_plan", "sas_plan.9", "sas_plan.10"])

    def test_names_of_files_are_safe_and_differ(self):
        odd = ["a b", "a~20b", "a\tb", "a/b", "-a", ".a", "a+2", "A", "a", "\u00e9", "\udcff", "x" * 300, "x" * 299 + "y", "", "<b>&\""]
        made = [names.file_name(it) for it in odd]
        self.assertEqual(len(set(made)), len(odd))
        self.assertEqual(made[:6], ["a~20b", "a~7E20b", "a~09b", "a~2Fb", "~2Da", "~2Ea"])
        for it in made:
            self.assertRegex(it, r"\A[A-Za-z0-9._~-]*\Z")
            self.assertLess(len(it), 200)

    def test_shown_names_have_no_control_characters(self):
        self.assertEqual(names.shown("a\tb\nc\\d\udcff\u00e9"), "a\\tb\\nc\\\\d\\xff\u00e9")


class Exact(unittest.TestCase):
    def test_scores(self):
        self.assertEqual(exact.satisficing(Fraction(4), Fraction(6)), Fraction(2, 3))
        self.assertEqual(exact.satisficing(Fraction(0), Fraction(0)), 1)
        self.assertEqual(exact.satisficing(Fraction(0), Fraction(3)), 0)
        self.assertEqual(exact.satisficing(Fraction(4), None), 0)
        self.assertEqual(exact.satisficing(None, None), 0)

    def test_halves_are_rounded_up(self):
        self.assertEqual(exact.rounded(Fraction(2, 3), 6), "0.666667")
        self.assertEqual(exact.rounded(Fraction(1, 8), 2), "0.13")
        self.assertEqual(exact.rounded(Fraction(1, 2), 0), "1")
        self.assertEqual(exact.rounded(Fraction(0), 6), "0.000000")
        self.assertEqual(exact.rounded(Fraction(199999, 100), 1), "2000.0")

    def test_costs_are_read_and_printed_exactly(self):
        for text, printed in ("007", "7"), ("0.50", "0.5"), ("3.000000001", "3.000000001"), ("0", "0"), ("9" * 20 + ".25", "9" * 20 + ".25"):
            self.assertEqual(exact.cost_text(exact.read_cost(text)), printed)
        for text in "", "-", "-1", "1e3", ".5", "5.", "1/2", " 1", "\u0661":
            self.assertIsNone(exact.read_cost(text))


class Metrics(unittest.TestCase):
    def reason(self, sections):
        """Why a problem with these sections is not scored."""
        return metric.why_unscored(("(define (problem p) (:domain d) (:init) %s (:goal (g)))" % sections).encode())

    def test_what_is_scored(self):
        for sections in "", "(:metric minimize (total-cost))", "(:METRIC Minimize\n( Total-Cost ) )", "( :metric minimize total-cost)", \
                "(:metric minimize ; maximize\n(total-cost))":
            self.assertEqual(self.reason(sections), "", sections)

    def test_what_is_not_scored(self):
        reasons = {
            "(:metric maximize (total-cost))": "maximize (total-cost)", "(:metric MINIMIZE (Fuel))": "minimize (fuel)",
            "(:metric minimize (+ (total-cost) (* 2 (fuel))))": "minimize (+ (total-cost) (* 2 (fuel)))",
            "(:metric;(total-cost))\n maximize(score ?x))": "maximize (score ?x)", "(:metric minimize (total-cost) (total-cost))":
            "minimize (total-cost) (total-cost)", "(:metric minimize)": "minimize", "(:metric)": "empty"}
        for sections, words in reasons.items():
            self.assertEqual(self.reason(sections), "the metric is " + words, sections)

    def test_only_a_section_of_the_problem_is_its_metric(self):
        for sections in "; (:metric maximize (x))\n", "(:length (:metric maximize (x)))", "(:metrics maximize (x))", "(a:metric maximize (x))", \
                "(:length :metric maximize)", "(:length (:metric maximize (x))) ; (:metric maximize (x))\n(:metric minimize (total-cost))":
            self.assertEqual(self.reason(sections), "", sections)
        self.assertEqual(self.reason("(:length (:metric minimize (total-cost))) (:metric maximize (x))"), "the metric is maximize (x)")

    def test_a_long_metric_is_cut(self):
        self.assertEqual(self.reason("(:metric minimize (%s))" % ("a" * 100)), "the metric is minimize (%s.." % ("a" * 70))


class Plans(Folder):
    def bundled(self, paths):
        """The plans of the planner p in these files, and their bundles."""
        return plans.bundled(plans.plan_files({"p": paths}))

    def test_bundles_separate_plans(self):
        files = [self.write("p/plan_%d" % it, text) for it, text in ((2, "(a)"), (10, ""), (11, "(b)\n"))]
        found, (bundle,) = self.bundled(files)
        self.assertEqual(bundle.content(), b"(a)\n---\n---\n(b)\n")
        self.assertEqual([(it.file, it.bundle, it.number) for it in found], [("plan_2", "p", 1), ("plan_10", "p", 2), ("plan_11", "p", 3)])

    def test_a_file_with_separators_holds_several_plans(self):
        path = self.write("p/sas_plan", "(a)\n--- \t\r\n---\n(b)\n--- no\n")
        found, (bundle,) = self.bundled([path])
        self.assertEqual([(it.part, it.number) for it in found], [(1, 1), (2, 2), (3, 3)])
        self.assertEqual(bundle.content(), b"(a)\n---\n---\n(b)\n--- no\n")

    def test_files_that_cannot_be_judged_are_kept_with_the_reason(self):
        large = self.write("p/plan.1", b" " * (plans.MOST_BYTES + 1))
        found, (bundle,) = self.bundled([large, os.path.join(self.folder, "none"), self.folder, self.write("p/plan.4", "(a)")])
        self.assertEqual([bool(it.unread) for it in found], [True, True, True, False])
        self.assertIn("plan.1 is too large", found[0].unread)
        self.assertEqual(found[1].unread, "cannot read none: No such file or directory")
        self.assertEqual(bundle.texts, [b"(a)"])

    def test_a_compressed_file_that_a_manifest_names_is_not_judged(self):
        found, bundles = self.bundled([self.write("p/sas_plan.1.xz", "(a)")])
        self.assertEqual(([it.unread for it in found], bundles), (["sas_plan.1.xz is compressed: unpack it first"], []))

    def test_plans_beyond_the_limit_of_a_file_go_into_another(self):
        half = b"(a)" + b" " * (plans.MOST_BYTES // 2)
        files = [self.write("p/plan.%d" % it, half) for it in (1, 2, 3)]
        found, bundles = self.bundled(files)
        self.assertEqual([it.name for it in bundles], ["p", "p+2", "p+3"])
        self.assertEqual([(it.bundle, it.number) for it in found], [("p", 1), ("p+2", 1), ("p+3", 1)])
        self.assertTrue(all(len(it.content()) <= plans.MOST_BYTES for it in bundles))

    def test_calls_take_64_planners_and_65536_plans(self):
        many = [plans.Bundle("p%d" % it, [b""]) for it in range(130)]
        self.assertEqual([len(it) for it in plans.batches(many)], [64, 64, 2])
        full = [plans.Bundle("a", [b""] * 65536), plans.Bundle("b", [b""])]
        self.assertEqual([[it.name for it in group] for group in plans.batches(full)], [["a"], ["b"]])

    def test_own_costs(self):
        said = {b"(a)\n; cost = 12 (unit cost)\n": "12", b";cost=0.5": "0.5", b"; cost = 1\n; Cost: 2": "2"}
        said.update(dict.fromkeys([b"; cost = x", b"(cost = 4)", b"; cost = 1e3", b"; makespan = 3"], ""))
        for text, cost in said.items():
            self.assertEqual(plans.own_cost(text), cost)


class Entries(Folder):
    def test_a_folder(self):
        for path in "d/p10/good/sas_plan.10", "d/p10/good/sas_plan.9", "d/p10/good/run.log", "d/p2/lazy/x", "d/p2/problem.pddl", "d/domain.pddl", \
                "d/p2/domain.pddl", "d/.git/p1/x/sas_plan":
            self.write(path)
        first, second = entries.from_folder(self.folder)
        place = lambda path: os.path.join(self.folder, path)
        self.assertEqual((first.problem, first.domain_file, first.plans), ("p2", place("d/p2/domain.pddl"), {"lazy": []}))
        self.assertEqual(first.others, {"lazy": place("d/p2/lazy/x")})
        self.assertEqual((second.problem, second.domain_file), ("p10", place("d/domain.pddl")))
        self.assertEqual(second.plans, {"good": [place("d/p10/good/sas_plan.9"), place("d/p10/good/sas_plan.10")]})

    def test_what_looks_like_a_plan_is_passed_over_with_the_reason(self):
        looks = ["Plan.1", "SAS_PLAN.2", "my_plan", "p1.Sol", "planner.txt", "plan.txt.old", "solution", "p1.PLAN", "a.Soln", "a.sol", "plan.ipc5"]
        other = ["run.log", "planner.log", "planner.log.gz", "Plan.ERR", "console.txt", "absolute", "x", "resolved", "p1.solver"]
        for name in looks + other + ["sas_plan.1", "run1/sas_plan", ".git/plan"]:
            self.write("d/p/a/" + name)
        for name in "plan.1", "lo.txt":
            self.write("d/p/b/" + name)
        entry, = entries.from_folder(self.folder)
        place = lambda name: os.path.join(self.folder, "d", "p", "a", name)
        passed = [(place(it), entries.OTHER_NAME) for it in looks] + [(place("run1"), entries.FOLDER)]
        self.assertEqual((entry.plans["a"], list(entry.passed)), ([place("sas_plan.1")], ["a"]))
        self.assertEqual(sorted(entry.passed["a"]), sorted(passed))
        self.assertEqual(entry.passed["a"][0][0], place("Plan.1"))

    def test_all_names_of_plans(self):
        taken = ["plan", "plan.1", "plan_2", "plan-3", "plan4", "sas_plan", "sas_plan.5", "sas_plan_6", "plan.ipc", "plan.txt", "p01.plan",
                 "p01.soln", "P01.SOL", "a b.plan"]
        packed = ["sas_plan.1.xz", "plan.1.GZ", "p01.plan.bz2", "plan.zip", "sas_plan.zst"]
        for name in taken + packed + ["logs.gz", "sas_plan.d/plan", "x.plan/plan"]:
            self.write("d/p/a/" + name)
        entry, = entries.from_folder(self.folder)
        self.assertEqual({os.path.basename(it) for it in entry.plans["a"]}, set(taken))
        why = dict.fromkeys(packed, "it is compressed: unpack it first")
        why.update(dict.fromkeys(["sas_plan.d", "x.plan"], entries.FOLDER))
        self.assertEqual({os.path.basename(path): reason for path, reason in entry.passed["a"]}, why)

    def test_a_manifest(self):
        lines = ["d p b D P x.10", "d p b D P x.9\r", "", "d p a D P ", "d o a D P y", "d o a D P x", ""]
        path = self.write("m.tsv", "\n".join(["\t".join(entries.MANIFEST)] + [it.replace(" ", "\t") for it in lines]))
        first, second = entries.from_manifest(path)
        place = lambda name: os.path.join(self.folder, name)
        self.assertEqual((first.problem, first.plans), ("o", {"a": [place("y"), place("x")]}))
        self.assertEqual(second.plans, {"b": [place("x.9"), place("x.10")], "a": []})

    def test_faulty_tables(self):
        for text, words in ("d\tp\tb\tD\tP", "line 1 has 5 columns"), ("d\tp\t\tD\tP\tx", "only the last column may be empty"), \
                ("d\tp\ta\tD\tP\tx\nd\tp\ta\tD\tQ\tx", "line 2: .*P and .*Q cannot be compared: cannot read"), ("", "names no problem"):
            with self.assertRaisesRegex(entries.Wrong, words):
                entries.from_manifest(self.write("m.tsv", text))
        for text, words in ("d\tp\t-1", "line 1: -1 is no cost"), ("d\tp\t1\nd\tp\t1", "line 2: a second cost"):
            with self.assertRaisesRegex(entries.Wrong, words):
                entries.references(self.write("r.tsv", text))

    def test_references(self):
        path = self.write("r.tsv", "domain\tproblem\tcost\nd\tp\t2.50\n")
        self.assertEqual(entries.references(path), {("d", "p"): Fraction(5, 2)})


MISSED = MissesGoal((Atom("x"),))


def report(*planners, costs=True):
    """A report on planners, which are pairs of a name and verdicts."""
    return Report("d", "p", tuple(Planner(name, tuple(verdicts)) for name, verdicts in planners), costs)


class Reports(unittest.TestCase):
    def test_several_calls_have_lines_that_follow_each_other(self):
        first, second = report(("a", [Valid(3, Fraction(5, 2)), MISSED]), ("b", [Unreadable(1)])), report(("c", [Valid(4)]))
        both = found.Reports([first, second])
        self.assertEqual(both.text, first.text + second.text)
        self.assertEqual({it: line.number for it, line in both.verdicts.items()}, {("a", 1): 2, ("a", 2): 3, ("b", 1): 5, ("c", 1): 8})
        self.assertEqual((both.summaries, both.counts_costs), ({"a": 4, "b": 6, "c": 9}, True))
        for (name, number), line in both.verdicts.items():
            self.assertTrue(both.lines[line.number - 1].startswith("%s %d %s" % (name, number, line.verdict)))

    def test_kept_reports_are_the_same(self):
        both = found.Reports([report(("a 1", [Valid(3)])), report(("a\u2028", [MISSED]), costs=False)])
        again = found.Reports(written=both.written)
        self.assertEqual((again.each, again.text), (both.each, both.text))


class Scores(unittest.TestCase):
    def found(self, verdicts, refused="", unread=(), unscored="", costs=True):
        """The finding of a problem on which planners have these verdicts."""
        entry = entries.Entry("d", "p", "", "", {name: [] for name in verdicts})
        listed = []
        for name, own in verdicts.items():
            listed += [plans.Plan(name, "x", bundle=name, number=at) for at in range(1, len(own) + 1)]
            listed += [plans.Plan(name, "y", unread="y is too large")] if name in unread else []
        if refused:
            return found.Judged(entry, listed, refused=refused)
        return found.Judged(entry, listed, found.Reports([report(*verdicts.items(), costs=costs)]), unscored=unscored)

    def row(self, texts, given=None, **more):
        """What counts of each planner's result."""
        known = {} if given is None else {("d", "p"): Fraction(given)}
        rows = scores.results_of(self.found(texts, **more), list(texts), known)
        return [(it.status, it.value, it.reference, it.score) for it in rows]

    def test_the_least_cost_counts_and_not_the_fewest_steps(self):
        texts = {"a": [Valid(2, Fraction(9)), Valid(5, Fraction(6)), MISSED], "b": [Valid(3, Fraction(4))]}
        self.assertEqual(self.row(texts), [("solved", 6, 4, Fraction(2, 3)), ("solved", 4, 4, 1)])

    def test_steps_count_where_costs_do_not(self):
        row = self.row({"a": [Valid(6), Valid(4)], "b": [Valid(5)]}, costs=False)
        self.assertEqual(row, [("solved", 4, 4, 1), ("solved", 5, 4, Fraction(4, 5))])

    def test_an_undefined_cost_solves_and_scores_nothing(self):
        self.assertEqual(self.row({"a": [Valid(2)]}), [("solved", None, None, 0)])
        self.assertEqual(self.row({"a": [Valid(2)], "b": [Valid(2, Fraction(3))]})[0], ("solved", None, 3, 0))
        self.assertEqual(self.row({"a": [Valid(2), Valid(9, Fraction(3))]}), [("solved", 3, 3, 1)])

    def test_zero(self):
        row = self.row({"a": [Valid(2, Fraction(0))], "b": [Valid(2, Fraction(3))]})
        self.assertEqual(row, [("solved", 0, 0, 1), ("solved", 3, 0, 0)])

    def test_references_count_if_they_are_lower(self):
        four = {"a": [Valid(2, Fraction(4))]}
        self.assertEqual(self.row(four, "3.5"), [("solved", 4, Fraction(7, 2), Fraction(7, 8))])
        self.assertEqual(self.row(four, 5), [("solved", 4, 4, 1)])
        self.assertEqual(self.row(four, 0), [("solved", 4, 0, 0)])

    def test_no_plan_is_not_a_failed_one(self):
        row = scores.results_of(self.found({"a": [], "b": [MISSED]}), ["a", "b", "c"], {})
        self.assertEqual([(it.status, it.plans, it.valid, it.failed, it.score) for it in row],
                         [("no plan", 0, 0, 0, 0), ("failed", 1, 0, 1, 0), ("no plan", 0, 0, 0, 0)])

    def test_refusals(self):
        row = scores.results_of(self.found({"a": [Valid(3)]}, refused="problem line 1"), ["a"], {})
        self.assertEqual([(it.status, it.plans, it.valid, it.failed) for it in row], [("refused: problem line 1", 1, None, 0)])
        texts = {"a": [Valid(3)], "b": [MISSED]}
        self.assertEqual([it[0] for it in self.row(texts, unread=("a", "b"))], ["solved", "refused: y is too large"])

    def test_another_metric_is_judged_and_not_scored(self):
        unscored = self.found({"a": [Valid(3, Fraction(7)), MISSED], "b": []}, unscored="the metric is empty")
        tournament = scores.Tournament([unscored, self.found({"a": [Valid(2, Fraction(4))], "b": []})], {("d", "p"): Fraction(1)}, "ipc")
        self.assertEqual(tables.as_tsv(tournament).splitlines()[1:], [
            "d\tp\ta\t2\t1\t3\t7\t-\t-\tnot scored: the metric is empty", "d\tp\tb\t0\t0\t-\t-\t-\t-\tnot scored: the metric is empty",
            "d\tp\ta\t1\t1\t2\t4\t1\t0.250000\tsolved", "d\tp\tb\t0\t0\t-\t-\t1\t0.000000\tno plan"])
        total = tournament.total("a")
        self.assertEqual((total.coverage, total.score, total.valid, total.failed), (1, Fraction(1, 4), 2, 1))
        first = json.loads(tables.as_json(tournament))["results"][0]
        self.assertEqual((first["score"], first["exact_score"], first["status"]), (None, None, "not scored: the metric is empty"))

    def test_sums_are_exact_and_can_be_printed_at_any_length(self):
        all_found = [self.found({"a": [Valid(2, Fraction(10 ** 12 + at))]}) for at in range(500)]
        tournament = scores.Tournament(all_found, {("d", "p"): Fraction("0.3")}, "ipc")
        self.assertGreater(tournament.total("a").score.denominator, 10 ** 4300)
        self.assertIn('"score": "0.000000"', tables.as_json(tournament))
        thirds = [self.found({"a": [Valid(2, Fraction(3))]})] * 3
        self.assertEqual(scores.Tournament(thirds, {("d", "p"): Fraction(1)}, "ipc").total("a").score, 1)

    def test_equal_planners_share_a_rank(self):
        tournament = scores.Tournament([self.found({"a": [Valid(3)], "b": [Valid(4)], "c": [Valid(3)]}, costs=False)], {}, "ipc")
        self.assertEqual([(rank, planner) for rank, planner, _ in tournament.standings()], [(1, "a"), (1, "c"), (3, "b")])


class Explained(unittest.TestCase):
    def explanation(self, *answers):
        """What is shown of a call of explain that gives or raises this, and the problem's finding."""
        judge, judged = Judge(mock.Mock(), None), found.Judged(None, [])
        judge.program.explain.side_effect = answers
        return judge.explanation(judged, [], []), judged

    def test_long_explanations_are_cut(self):
        self.assertEqual(self.explanation("a\n  \udcff\n")[0], "a\n  \ufffd")
        self.assertEqual(self.explanation("a\n" * 60)[0], "a\n" * 59 + "a")
        self.assertEqual(self.explanation("a\n" * 61)[0], "a\n" * 60 + "..")
        self.assertEqual(self.explanation("a" * 301)[0], "a" * 300 + "..")

    def test_a_call_that_goes_wrong_is_made_again(self):
        judged = self.explanation(ValueError("no folder"))[1]
        self.assertEqual((judged.kept, judged.unexplained), (False, "no folder"))
        judged = self.explanation(CallFailed(3, "out of\nmemory"))[1]
        self.assertEqual((judged.kept, judged.unexplained), (False, "plan_judge ended with status 3: out of memory"))


class Stored(Folder):
    def test_a_report_counts_only_for_its_input_and_whole(self):
        kept, entry = store.Store(self.folder), entries.Entry("d", "p", "", "")
        self.assertIsNone(kept.kept(entry, "1"))
        reports = found.Reports([report(("a", [Valid(3, Fraction(1, 2))])), report(("b", [MISSED]))])
        kept.keep(entry, "1", store.Answer(reports=reports, explained={"a": "why"}))
        again = kept.kept(entry, "1")
        self.assertEqual((again.reports.text, again.explained, again.refused), (reports.text, {"a": "why"}, ""))
        self.assertIsNone(kept.kept(entry, "2"))
        self.write("d/p.txt", "rep")
        self.assertIsNone(kept.kept(entry, "1"))

    def test_two_calls_may_write_one_file(self):
        """Each writes its own new file, so the result is whole."""
        path, texts = os.path.join(self.folder, "d", "p.txt"), [b"%d" % at * 100000 for at in range(8)]
        with concurrent.futures.ThreadPoolExecutor(8) as pool:
            list(pool.map(lambda text: store.write(path, text), texts * 8))
        with open(path, "rb") as file:
            self.assertIn(file.read(), texts)
        self.assertEqual(os.listdir(os.path.dirname(path)), ["p.txt"])
        os.mkdir(os.path.join(self.folder, "d", "folder"))
        with self.assertRaises(OSError):
            store.write(os.path.join(self.folder, "d", "folder"), b"")
        self.assertEqual(sorted(os.listdir(os.path.dirname(path))), ["folder", "p.txt"])

    def test_fingerprints_tell_lists_apart(self):
        lists = [[], [""], ["a", "b"], ["ab"], ["a", "b", ""], ["1:a"]]
        self.assertEqual(len({store.fingerprint(it) for it in lists}), len(lists))
