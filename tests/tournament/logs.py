"""Tests of bin/plan_of_log. They need neither a program nor a package."""
import os
import subprocess
import sys

from tests.tournament.units import Folder

SCRIPT = os.path.join(os.path.dirname(os.path.dirname(os.path.dirname(os.path.realpath(__file__)))), "bin", "plan_of_log")
FF = """
ff: parsing domain file
domain 'GRIPPER' defined
 ... done.

Cueing down from goal distance:    2 into depth [1]
                                   0

ff: found legal plan as follows

step    0: MOVE A B
        1: Pick-up ball_1
        2: LIGHT
     

time spent:    0.00 seconds instantiating 4 easy, 0 hard action templates
               0.00 seconds total time
"""
METRIC_FF = "ff: found legal plan as follows\nstep    0: MOVE A B\n        1: LIGHT\nplan cost: 3.000000\n\ntime spent:    0.00 seconds\n"
MADAGASCAR = "PLAN FOUND: 3 steps\nSTEP 0: move(a,b) Pick( c , d )\nSTEP 1:\nSTEP 2: light()\n3 actions in the plan.\n"
STAMPS = "; Plan\n0 : (move a b)\n1 : (light)\n"
POPF = "; Time 0.00\n0.000: (move a b)  [1.000]\n1.001: ( light )  [D:1.00; C:0.10]\r\n"


class Logs(Folder):
    """Calls of bin/plan_of_log."""

    def call(self, text, status=0):
        """The output of a call with this log, and what it said after the log's name. A call that fails has no output."""
        path = self.write("run.log", text)
        done = subprocess.run([sys.executable, SCRIPT, path], capture_output=True, timeout=60)
        said = done.stderr.decode("latin-1")
        self.assertEqual((done.returncode, said.count("\n")), (status, 1), said)
        self.assertTrue(said.startswith("plan_of_log: %s: " % path), said)
        self.assertTrue(status == 0 or done.stdout == b"")
        return done.stdout.decode("latin-1"), said[len("plan_of_log: %s: " % path):-1]

    def refused(self, text):
        """Why a log is refused."""
        return self.call(text, status=1)[1]


class Taken(Logs):
    def test_ff(self):
        self.assertEqual(self.call(FF), ("(MOVE A B)\n(Pick-up ball_1)\n(LIGHT)\n", "FF's log, 3 steps"))
        self.assertEqual(self.call(METRIC_FF), ("(MOVE A B)\n(LIGHT)\n", "FF's log, 2 steps"))
        self.assertEqual(self.call(FF.replace("\n", "\r\n"))[0], self.call(FF)[0])
        self.assertEqual(self.call("ff: found legal plan as follows\nstep    0: LIGHT"), ("(LIGHT)\n", "FF's log, 1 step"))

    def test_the_empty_plan_of_ff(self):
        text = "ff: parsing problem file\n\n\nff: goal can be simplified to TRUE. The empty plan solves it\n\n"
        self.assertEqual(self.call(text), ("", "FF's log, 0 steps"))

    def test_madagascar(self):
        self.assertEqual(self.call(MADAGASCAR), (
            "(move a b)\n(Pick c d)\n(light)\n", "Madagascar's log, 3 steps with 3 actions, those of a step in the order of its line"))
        self.assertEqual(self.call("STEP 0: a(x)\nSTEP 1: b(y)\n"), ("(a x)\n(b y)\n", "Madagascar's log, 2 steps"))

    def test_stamps(self):
        self.assertEqual(self.call(STAMPS), ("(move a b)\n(light)\n", "lines with stamps, 2 steps"))
        self.assertEqual(self.call(POPF), ("(move a b)\n(light)\n", "lines with stamps, 2 steps"))
        self.assertEqual(self.call("9: (a)\n\n; half\n10: (b)\n")[0], "(a)\n(b)\n")

    def test_standard_input(self):
        done = subprocess.run([sys.executable, SCRIPT, "-"], input=STAMPS.encode(), capture_output=True, timeout=60)
        self.assertEqual((done.stdout, done.stderr), (b"(move a b)\n(light)\n", b"plan_of_log: standard input: lines with stamps, 2 steps\n"))

    def test_bytes_that_are_no_text_may_be_around_a_plan(self):
        self.assertEqual(self.call(b"\xff\x85\n0 : (a)\n")[0], "(a)\n")


class Several(Logs):
    def test_the_last_plan_is_taken(self):
        for first, last, plan, said in (
                (FF, METRIC_FF, "(MOVE A B)\n(LIGHT)\n", "FF's log, the last of 2 plans, 2 steps"),
                (METRIC_FF, "ff: goal can be simplified to TRUE. The empty plan solves it\n", "", "FF's log, the last of 2 plans, 0 steps"),
                (MADAGASCAR, "STEP 0: a()\n", "(a)\n", "Madagascar's log, the last of 2 plans, 1 step"),
                (STAMPS, "better\n0 : (light)\n", "(light)\n", "lines with stamps, the last of 2 plans, 1 step"),
                (STAMPS, "; better\n0 : (light)\n", "(light)\n", "lines with stamps, the last of 2 plans, 1 step"),
                ("0: (a)\n", "better\n0: (b)\n", "(b)\n", "lines with stamps, the last of 2 plans, 1 step")):
            self.assertEqual(self.call(first + last), (plan, said))

    def test_only_the_last_plan_has_to_be_right(self):
        self.assertEqual(self.call("0: (a)\n0: (b)\nbetter\n0: (c)\n1: (d)\n")[0], "(c)\n(d)\n")
        self.assertEqual(self.refused("STEP 0: a()\nSTEP 1: b()\nSTEP 0: a() b\n"), "line 3: not all of this are actions such as move(a,b)")

    def test_plans_of_two_forms_are_refused(self):
        self.assertEqual(self.refused(FF + MADAGASCAR), "plans of several forms: FF's log, Madagascar's log")
        self.assertEqual(self.refused(STAMPS + FF), "plans of several forms: lines with stamps, FF's log")


class Refused(Logs):
    def test_steps_at_the_same_time(self):
        why = "line 3: a second step at 0.000: steps at the same time have no order; let the planner write a sequential plan"
        self.assertEqual(self.refused("; Time 0.00\n0.000: (a x) [1.000]\n0.000: (b y) [1.000]\n2.0: (c)\n"), why)
        self.assertEqual(self.refused("0: (a)\n1.00: (b)\n1: (c)\n"), why.replace("0.000", "1"))
        self.assertIn("a second step at 0", self.refused("0: (a)\n\n0: (b)\n"))

    def test_plans_that_are_not_whole(self):
        for text, why in (
                ("ff: found legal plan as follows\n\n", "the log ends before the first step of the plan"),
                ("ff: found legal plan as follows\n\nstep 0: A\n 2: B\n\n", "line 4: step 2, and not step 1"),
                ("ff: found legal plan as follows\nstep 0: A\nKilled\n", "line 3: this is no step of FF"),
                ("ff: found legal plan as follows\nstep 0: A\n 1: (B)\n", "line 3: this is no step of FF"),
                ("ff: found legal plan as follows\nstep 0: A\n\n 1: B\n", "line 4: a step after the end of the plan"),
                ("STEP 1: a()\n", "line 1: step 1, and not step 0"),
                ("STEP 0: a()\nSTEP 2: a()\n", "line 2: step 2, and not step 1"),
                ("STEP 0: a(x,) b()\n", "line 1: not all of this are actions such as move(a,b)"),
                ("STEP 0: a(x\n", "line 1: not all of this are actions such as move(a,b)"),
                (b"STEP 0: a() \xa0\n", "line 1: not all of this are actions such as move(a,b)"),
                ("1: (a)\n0: (b)\n", "line 2: the stamp 0 after 1"),
                ("0: (a)\nKilled\n1: (b)\n", "line 3: there are other lines within the plan")):
            self.assertEqual(self.refused(text), why)

    def test_what_is_no_plan(self):
        for text in "", "(a)\n", "ff: goal can be simplified to FALSE. No plan will solve it\n", "1.(a)\n", "0 : a x\n", "0 : ()\n":
            self.assertEqual(self.refused(text), "no plan of FF or Madagascar, and no lines such as 0 : (move a b)")

    def test_a_file_that_cannot_be_read(self):
        done = subprocess.run([sys.executable, SCRIPT, self.folder], capture_output=True, text=True, timeout=60)
        self.assertEqual((done.returncode, done.stdout, done.stderr), (1, "", "plan_of_log: %s: cannot be read: Is a directory\n" % self.folder))

    def test_wrong_calls(self):
        for words in [], ["a", "b"], ["--strange"]:
            done = subprocess.run([sys.executable, SCRIPT, *words], capture_output=True, text=True, timeout=60)
            self.assertEqual((done.returncode, done.stdout, done.stderr.count("\n")), (2, "", 1))
