"""A cluster of Slurm on this machine: a controller and four nodes, whose files are in one folder. No root is needed."""
import ctypes
import getpass
import os
import shutil
import signal
import socket
import subprocess
import tempfile
import time

PROGRAMS = ("munged", "slurmctld", "slurmd", "sbatch", "squeue", "scancel", "scontrol")
INSTALL = "sudo apt-get install --no-install-recommends slurm-wlm munge"
NODES = 4
SECONDS = 60
SETTINGS = """\
ClusterName=judge
SlurmctldHost={host}(127.0.0.1)
SlurmUser={user}
SlurmdUser={user}
AuthType=auth/munge
AuthInfo=socket={room}/munge.sock,cred_expire=5
CredType=cred/munge
SlurmctldPort={port}
SlurmctldPidFile={room}/slurmctld.pid
SlurmdPidFile={room}/slurmd.%n.pid
SlurmdLogFile={room}/slurmd.%n.log
SlurmctldLogFile={room}/slurmctld.log
SlurmdSpoolDir={room}/spool.%n
StateSaveLocation={room}/state
ProctrackType=proctrack/linuxproc
TaskPlugin=task/none
JobAcctGatherType=jobacct_gather/none
AccountingStorageType=accounting_storage/none
JobCompType=jobcomp/none
SelectType=select/cons_tres
SelectTypeParameters=CR_Core
SchedulerType=sched/backfill
SchedulerParameters=batch_sched_delay=0,sched_interval=1,bf_interval=1
MpiDefault=none
SwitchType=switch/none
ReturnToService=2
SlurmdParameters=config_overrides
SlurmdTimeout=6
KillWait=1
MinJobAge=300
{nodes}
PartitionName=main Nodes=n[1-{count}] Default=YES MaxTime=60 State=UP OverSubscribe=NO
"""


def die_with_the_parent():
    """Ends a daemon if the tests are killed (PR_SET_PDEATHSIG)."""
    ctypes.CDLL(None).prctl(1, signal.SIGTERM)


def missing():
    """The programs that are not installed. Debian has some of them where only root looks."""
    return [it for it in PROGRAMS if program(it) is None]


def program(name):
    """The path of a program."""
    return shutil.which(name, path=os.environ["PATH"] + ":/usr/sbin:/sbin")


def free_ports(count):
    """Ports that nobody uses now."""
    sockets = [socket.socket() for _ in range(count)]
    try:
        for it in sockets:
            it.bind(("127.0.0.1", 0))
        return [it.getsockname()[1] for it in sockets]
    finally:
        for it in sockets:
            it.close()


class Cluster:
    """A cluster that runs until it is stopped. The commands of Slurm need its environment."""

    def __init__(self):
        self.made = tempfile.TemporaryDirectory(prefix="slurm-")
        self.room, self.daemons = self.made.name, {}
        os.chmod(self.room, 0o755)
        os.mkdir(os.path.join(self.room, "state"))
        os.mkdir(os.path.join(self.room, "munge"), 0o700)
        with open(os.path.join(self.room, "munge", "key"), "wb", opener=lambda path, flags: os.open(path, flags, 0o400)) as file:
            file.write(os.urandom(128))
        self.environment = dict(os.environ, SLURM_CONF=self.settings())

    def settings(self):
        """Writes the file of settings, and returns its path."""
        host, (port, *ports) = socket.gethostname().split(".")[0], free_ports(NODES + 1)
        nodes = "\n".join("NodeName=n%d NodeHostname=%s NodeAddr=127.0.0.1 Port=%d CPUs=1 State=UNKNOWN" % (at, host, it) for at, it in enumerate(ports, 1))
        path = os.path.join(self.room, "slurm.conf")
        with open(path, "w") as file:
            file.write(SETTINGS.format(host=host, user=getpass.getuser(), room=self.room, port=port, nodes=nodes, count=NODES))
        return path

    def start(self):
        """Starts all daemons, and waits until the nodes are idle."""
        room = self.room
        # By force, since a folder for temporary files may be open to others.
        self.daemon("munged", "--foreground", "--force", "--socket=%s/munge.sock" % room, "--key-file=%s/munge/key" % room, "--pid-file=%s/munge/pid" % room,
                    "--log-file=%s/munge/log" % room, "--seed-file=%s/munge/seed" % room)
        self.until(lambda: os.path.exists(os.path.join(room, "munge.sock")))
        self.daemon("slurmctld", "-D", "-c")
        for node in range(1, NODES + 1):
            self.node(node)
        self.until(lambda: self.call("sinfo", "--noheader", "--format=%T %D").stdout == "idle %d\n" % NODES)

    def node(self, number):
        """Starts a node."""
        self.daemon("slurmd", "-D", "-N", "n%d" % number, name="n%d" % number)

    def daemon(self, command, *words, name=None):
        """Starts a daemon."""
        with open(os.path.join(self.room, (name or command) + ".said"), "a") as said:
            self.daemons[name or command] = subprocess.Popen(
                [program(command), *words], env=self.environment, cwd=self.room, stdin=subprocess.DEVNULL, stdout=said, stderr=said,
                start_new_session=True, preexec_fn=die_with_the_parent)

    def call(self, *words):
        """Runs a command of Slurm."""
        return subprocess.run([program(words[0]), *words[1:]], env=self.environment, capture_output=True, text=True, timeout=SECONDS)

    def until(self, is_so):
        """Waits until something is so."""
        end = time.monotonic() + SECONDS
        while not is_so():
            ended = [name for name, it in self.daemons.items() if it.poll() is not None]
            if ended or time.monotonic() > end:
                raise AssertionError("the cluster does not start: %s" % (self.said(ended) or "it takes too long"))
            time.sleep(0.05)

    def said(self, names):
        """What daemons said."""
        lines = []
        for name in names:
            with open(os.path.join(self.room, name + ".said")) as file:
                lines += ["%s: %s" % (name, it) for it in file.read().splitlines()[-3:]]
        return "; ".join(lines)

    def jobs(self):
        """How many tasks wait or run."""
        return self.call("squeue", "--noheader", "--array").stdout.count("\n")

    def stop(self):
        """Ends all jobs and all daemons."""
        if "slurmctld" in self.daemons:
            self.call("scancel", "--user=" + getpass.getuser())
        for name in sorted(self.daemons, key=lambda it: (it == "munged", it == "slurmctld")):
            self.end(name)
        self.made.cleanup()

    def kill(self, name):
        """Ends a daemon as a machine that dies would."""
        process = self.daemons.pop(name)
        process.kill()
        process.wait()

    def end(self, name):
        """Ends a daemon."""
        process = self.daemons.pop(name)
        process.terminate()
        try:
            process.wait(10)
        except subprocess.TimeoutExpired:
            process.kill()
            process.wait()
