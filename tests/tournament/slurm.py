"""Tests of bin/tournament --slurm on a cluster of Slurm that is started for them. They need the packages slurm-wlm and munge."""
import os
import re
import shlex
import shutil
import signal
import subprocess
import sys
import tempfile
import time

from tests.tournament.calls import EXAMPLE, OUTPUTS, SECONDS, TOP, Calls, read, take_interrupts
from tests.tournament.cluster import Cluster

REFERENCE = ["--reference", os.path.join(EXAMPLE, "reference.tsv")]
# Notes the node, itself, its parent, which is the task, and the parent of that, which is the node's own process for it; then waits as long as told.
BLOCKING = """
if [ -n "$SLURM_ARRAY_TASK_ID" ] && [ -e block ]; then
    echo "$SLURMD_NODENAME $$ $PPID $(cut -d" " -f4 /proc/$PPID/stat)" >> tasks
    while [ -e block ]; do sleep 0.1; done
fi
"""


class OnACluster(Calls):
    """Tests with the cluster."""

    @classmethod
    def setUpClass(cls):
        super().setUpClass()
        made = tempfile.TemporaryDirectory()
        cls.addClassCleanup(made.cleanup)
        cls.local = os.path.join(made.name, "site")
        words = [sys.executable, os.path.join(TOP, "bin", "tournament"), OUTPUTS, *REFERENCE, "--out", cls.local, "--no-site"]
        subprocess.run(words, check=True, stdout=subprocess.DEVNULL, stderr=subprocess.DEVNULL)
        cls.cluster = Cluster()
        cls.addClassCleanup(cls.cluster.stop)
        cls.cluster.start()

    def setUp(self):
        super().setUp()
        self.site = os.path.join(self.folder, "a site's 100%j \"$HOME\"")
        self.environment = self.cluster.environment

    def tearDown(self):
        self.assertEqual(self.cluster.jobs(), 0)

    def judge(self, *words, status=0, **more):
        """Runs a call for the example, and returns what it printed on standard error."""
        return self.call(OUTPUTS, *REFERENCE, *words, status=status, **{**self.environment, **more})

    def begin(self, *words, **more):
        """Starts such a call."""
        return subprocess.Popen(self.words(OUTPUTS, *REFERENCE, *words), env={**self.environment, **more}, stdout=subprocess.DEVNULL,
                                stderr=subprocess.PIPE, text=True, preexec_fn=take_interrupts)

    def program(self, text):
        """A program for the tasks that goes on with these lines of sh in the test's folder."""
        return self.counting("(cd '%s'\n%s\n) || exit" % (self.folder, text))

    def assert_results(self):
        """Checks that the results are those of a local call, byte for byte, and that nothing else is in the site."""
        self.assertEqual(read(self.site, "results.tsv"), read(EXAMPLE, "results.tsv"))
        for name in "results.tsv", "results.json", "reports/letters/p1.txt", "reports/letters/p4.txt":
            self.assertEqual(read(self.site, name), read(self.local, name))
        self.assertEqual(sorted(os.listdir(self.site)), sorted(os.listdir(self.local)))

    def tasks(self, count):
        """Waits until tasks have noted themselves, and returns their numbers: of the node, and of its processes."""
        until = time.monotonic() + SECONDS
        while time.monotonic() < until:
            if os.path.exists(os.path.join(self.folder, "tasks")):
                lines = read(self.folder, "tasks").decode().splitlines()
                if len(lines) >= count:
                    return {line.split()[0]: [int(it) for it in line.split()[1:]] for line in lines}
            time.sleep(0.05)
        raise AssertionError("no tasks began")


class Whole(OnACluster):
    def test_the_results_are_those_of_a_local_call(self):
        said = self.judge("--slurm=--time=1 --partition=main", "--tasks", "4")
        self.assertRegex(said, "tournament: job [0-9]+ judges 20 problems in 4 tasks\n")
        self.assertEqual(said.count("\n"), 2)
        self.assert_results()
        self.assertNotIn("job", self.judge("--slurm"))

    def test_only_what_is_left_is_submitted(self):
        for which in "1/4", "3/4":
            self.judge("--share", which)
        self.assertRegex(self.judge("--slurm", "--tasks", "4"), "judges 10 problems in 2 tasks\n")
        self.assert_results()

    def test_a_call_that_slurm_does_not_take(self):
        for options, words in ("--partition=none", "invalid partition"), ("--no-such-option", "unrecognized option"), ("script", "does not look like a batch script"):
            said = self.judge("--slurm=" + options, status=1)
            self.assertEqual(said.count("\n"), 1)
            self.assertRegex(said, "tournament: sbatch takes no job: .*%s" % words)
        self.assertEqual(sorted(os.listdir(self.site)), [".tournament"])


    def test_the_calls_that_the_documents_show(self):
        shown = []
        for page in "TUTORIAL.md", "TOURNAMENT.md":
            shown += re.findall(r"^bin/tournament .*--slurm.*$", read(TOP, "docs", page).decode(), re.MULTILINE)
        self.assertEqual(len(shown), 2)
        for line in shown:
            words = shlex.split(line)
            words[words.index("--out") + 1] = self.site
            done = subprocess.run(words + ["--no-site"] * ("--no-site" not in words), cwd=TOP, env=self.environment, capture_output=True, text=True)
            self.assertEqual(done.returncode, 0, done.stderr)
            self.assertRegex(done.stderr, "^tournament: job [0-9]+ judges 20 problems in 20 tasks\n")
            shutil.rmtree(self.site)


class Failing(OnACluster):
    def test_what_a_task_leaves_is_judged_here(self):
        program = self.program("""[ "$SLURM_ARRAY_TASK_ID" != 3 ] || { echo "no memory on this node" >&2; exit 3; }
            [ "$SLURM_ARRAY_TASK_ID" != 2 ] || kill -9 $PPID""")
        said = self.judge("--slurm", "--tasks", "4", PLAN_JUDGE=program)
        self.assertRegex(said, "task 2 of job [0-9]+ failed: ")
        self.assertRegex(said, "task 3 of job [0-9]+ failed: .*no memory on this node\n")
        self.assertIn("tournament: 10 problems left, judged here; what tasks said is in %s/slurm\n" % self.site, said)
        logs = os.listdir(os.path.join(self.site, "slurm"))
        self.assertEqual(sorted(it.split("-")[1] for it in logs), ["2.txt", "3.txt"])
        shutil.rmtree(os.path.join(self.site, "slurm"))
        self.assert_results()

    def test_an_interrupt_cancels_the_job_and_the_same_call_goes_on(self):
        program, block = self.program(BLOCKING), self.write("block")
        process = self.begin("--slurm", "--tasks", "4", PLAN_JUDGE=program)
        tasks = self.tasks(4)
        process.send_signal(signal.SIGINT)
        said = process.communicate(timeout=SECONDS)[1]
        self.assertEqual(process.returncode, 130, said)
        self.assertRegex(said, "interrupted: job [0-9]+ is cancelled; 0 of 20 problems are judged; the reports are kept, and the same call goes on")
        self.cluster.until(lambda: not self.cluster.jobs())
        self.cluster.until(lambda: not any(os.path.exists("/proc/%d" % it) for own in tasks.values() for it in own[:2]))
        self.assertFalse(os.path.exists(os.path.join(self.site, "results.tsv")))
        os.remove(block)
        self.assertNotIn("failed", self.judge("--slurm", "--tasks", "4", PLAN_JUDGE=program))
        self.assert_results()


class Dying(OnACluster):
    def test_a_node_that_dies(self):
        """Slurm runs its task again on another node."""
        program, block = self.program(BLOCKING), self.write("block")
        process = self.begin("--slurm", "--tasks", "4", PLAN_JUDGE=program)
        tasks = self.tasks(4)
        self.cluster.kill("n1")
        for it in tasks["n1"][::-1]:
            os.kill(it, signal.SIGKILL)
        os.remove(block)
        self.assertEqual(self.cluster.call("scontrol", "update", "NodeName=n1", "State=DOWN", "Reason=test").returncode, 0)
        said = process.communicate(timeout=SECONDS)[1]
        self.assertEqual(process.returncode, 0, said)
        self.assertNotIn("failed", said)
        self.assert_results()
        self.cluster.node(1)
