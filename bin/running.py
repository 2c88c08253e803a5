"""Runs commands one after another, and ends the one that runs when the caller is interrupted."""
import interrupts

import contextlib
import os
import signal
import subprocess
import sys
import time

UNREAD = 141  # the status if whoever read the output has closed it
SECONDS_TO_END = 30


class Interrupted(Exception):
    """A signal that asks to end came. `is_said` says whether a script that ran for this one has told the user."""
    is_said = False


def until_interrupted(main, name=os.path.basename(sys.argv[0])):
    """The status of a script: that of `main`, or that of an interrupt, which is one line that begins with `name`."""
    def stop(*_):
        for number in (signal.SIGINT, signal.SIGTERM, signal.SIGHUP):
            signal.signal(number, signal.SIG_IGN)
        raise Interrupted

    for number in (signal.SIGINT, signal.SIGTERM, signal.SIGHUP):
        signal.signal(number, stop)
    try:
        status = main()
        sys.stdout.flush()
        return status
    except BrokenPipeError:
        os.dup2(os.open(os.devnull, os.O_WRONLY), sys.stdout.fileno())  # nobody reads on
        return UNREAD
    except Interrupted as interrupted:
        sys.stdout.flush()
        if not interrupted.is_said:
            print(f"{Progress.clear()}{name}: interrupted", file=sys.stderr)
        return interrupts.ENDED


class Progress:
    """A line on a terminal that says what goes on, and for how long. Elsewhere it is not shown."""

    def __init__(self, text):
        self.text, self.begun, self.shown = text, time.time(), 0

    def seconds(self):
        return time.time() - self.begun

    def show(self):
        """Shows the line anew, at most once a second."""
        if sys.stderr.isatty() and time.time() - self.shown >= 1:
            self.shown = time.time()
            minutes, seconds = divmod(int(self.seconds()), 60)
            print(f"{self.clear()}{self.text}, {minutes}:{seconds:02}", end="", file=sys.stderr, flush=True)

    @staticmethod
    def clear():
        """What takes the line away."""
        return "\r\033[K" if sys.stderr.isatty() else ""


class Command:
    """A command that runs, and whose output goes to a file. `heard` is called with each line of it, when it is looked for."""

    def __init__(self, words, log, heard=lambda line: None, **how):
        with open(log, "wb") as out:
            self.process = subprocess.Popen(words, stdin=subprocess.DEVNULL, stdout=out, stderr=subprocess.STDOUT, start_new_session=True, **how)
        self.said, self.heard = open(log, encoding="utf-8", errors="replace"), heard

    def status(self):
        """Its status, or None while it runs."""
        found = self.process.poll()
        for line in self.said:
            self.heard(line.rstrip("\n"))
        return found

    def close(self):
        """Ends it and all that it started, if it still runs."""
        if self.process.poll() is None:
            end(self.process)
        self.said.close()


def run(words, progress, log, heard=lambda line: None, **how):
    """Runs a command whose output goes to a file, and answers its status. `heard` is called with each line of it, as soon as it can be read.

    An interrupt is passed on to the command and all that it started, and to the caller once they have ended.
    """
    with contextlib.closing(Command(words, log, heard, **how)) as command:
        while (status := command.status()) is None:
            progress.show()
            time.sleep(0.1)
    return status


def passed_on(words, **how):
    """Runs a script of the repository, which shows its own progress, and answers its status. An interrupt is passed on to it."""
    process = subprocess.Popen(words, stdin=subprocess.DEVNULL, start_new_session=True, **how)
    try:
        return process.wait()
    except Interrupted as interrupted:
        end(process)
        interrupted.is_said = process.returncode == interrupts.ENDED
        raise


def end(process):
    """Asks a command and all that it started to end, and ends them if they do not."""
    for number, seconds in ((signal.SIGINT, SECONDS_TO_END), (signal.SIGKILL, None)):
        try:
            os.killpg(process.pid, number)
            process.wait(seconds)
            return
        except subprocess.TimeoutExpired:
            pass
        except ProcessLookupError:
            process.wait()
            return
