"""Runs of guest programs: which program runs them, with which workers, and how the runs of one guest are compared."""
import os
import re
import signal
import subprocess
import sys
import tempfile
import time
from collections import namedtuple

from dt_commands.progress import Progress
from dt_commands.repository import TOP
from dt_commands.texts import contents, first_difference, read_text

KIT = f"{TOP}/guest"
WORKERS = (1, 2, 4, 64)
# After how many seconds the memory of a run is looked at again.
LOOK = 0.002
# What a run gave: its status, standard output, standard error, and trace, or None if it left none.
Run = namedtuple("Run", "status output errors trace")


def program():
    """Returns the program that runs the guests: the one that DTHREADS names, or else ./dthreads."""
    return os.path.realpath(os.environ.get("DTHREADS") or f"{TOP}/dthreads")


def compiled(words, out, folder=None):
    """Builds a guest program by the kit, from a folder. Returns what the compiler said if it is not built, else None."""
    how = {"cwd": folder, "stdout": subprocess.PIPE, "stderr": subprocess.STDOUT, "errors": "replace"}
    ran = subprocess.run([f"{KIT}/dthreads-cc", *words, "-o", out], **how)
    return ran.stdout if ran.returncode else None


def built(words, out, folder=None):
    """Builds a guest program, which must build, and returns its file."""
    said = compiled(words, out, folder)
    if said is not None:
        raise SystemExit(f"{os.path.basename(out)}: doesn't build:\n{said}")
    return out


def memory_of(process):
    """Returns how many KiB a process had at most so far, 0 if it has ended."""
    found = re.search(r"VmHWM:\s+(\d+)", read_text(f"/proc/{process.pid}/status"))
    return int(found[1]) if found else 0


def taken(process):
    """Waits for the end of a process. Returns the processor seconds that it took, and how many KiB it had at most while it was looked at.
    What the system tells at the end isn't its memory: that of the process which started it counts there."""
    most = 0
    while True:
        most = max(most, memory_of(process))
        ended, _, used = os.wait4(process.pid, os.WNOHANG)
        if ended:
            process.returncode = 0
            return used.ru_utime + used.ru_stime, most
        time.sleep(LOOK)


def ended_within(seconds, command):
    """Runs a command and what it starts, without input. Returns its status and all that it said, or None if it didn't end in time."""
    how = {"stdin": subprocess.DEVNULL, "stdout": subprocess.PIPE, "stderr": subprocess.STDOUT, "start_new_session": True}
    with subprocess.Popen(command, env={**os.environ, "DTHREADS": program()}, **how) as process:
        try:
            said = process.communicate(timeout=seconds)[0]
        except BaseException as why:
            os.killpg(process.pid, signal.SIGKILL)
            if isinstance(why, subprocess.TimeoutExpired):
                return None
            raise
    return process.returncode, said.decode(errors="replace")


def with_share(parser):
    """Gives a part its option to make a share alone."""
    parser.add_argument("--share", default="1/1", metavar="K/N", help="the Kth of N shares alone, which are disjoint and have all together")


def share(text, things):
    """Returns the Kth of N shares of some things, by the option's text."""
    at, count = (int(it) for it in text.split("/"))
    if not 1 <= at <= count:
        raise SystemExit(f"tools/dt: there is no share {text}")
    return list(things)[at - 1 :: count]


class Tally:
    """Counts what was tried and what failed; each failure is told at once, on standard error."""

    def __init__(self):
        self.tried, self.failed = 0, 0

    def fail(self, text):
        self.failed += 1
        print(text, file=sys.stderr, flush=True)

    def status(self, what, well):
        """Prints how it ended: `what` were tried, and what is so if none failed. Returns the status."""
        if not self.tried:
            print(f"no {what} were tried", file=sys.stderr)
            return 1
        if self.failed:
            print(f"{self.failed} failures in {self.tried} {what}", file=sys.stderr)
            return 1
        print(f"{self.tried} {what}{well}")
        return 0


def all_tried(what, things, does, well, name=lambda it: it[0]):
    """Tries things one after the other by `does(tally, room, thing)`, tells how it ended, and returns the status."""
    tally, every = Tally(), list(things)
    tally.tried = len(every)
    with tempfile.TemporaryDirectory() as room, Progress(what, len(every)) as progress:
        for it in progress.each(every, name):
            does(tally, room, it)
    return tally.status(what, well)


class Guest:
    """A command that runs a guest: its words before the options that each run has and behind them, and its input. If it is
    merged, what it writes on standard error is a part of its output."""

    def __init__(self, before, after=(), given=None, is_merged=False, environment=None):
        self.before, self.after, self.given, self.is_merged = before, after, given or os.devnull, is_merged
        self.environment = {**os.environ, **(environment or {})}

    def run(self, workers, room):
        trace = f"{room}/trace"
        if os.path.exists(trace):
            os.remove(trace)
        words = [*self.before, "--workers", str(workers), "--trace", trace, *self.after]
        errors = subprocess.STDOUT if self.is_merged else subprocess.PIPE
        with open(self.given, "rb") as it:
            ran = subprocess.run(words, stdin=it, stdout=subprocess.PIPE, stderr=errors, env=self.environment)
        return Run(ran.returncode, ran.stdout, ran.stderr or b"", contents(trace))


def agree(tally, name, guest, room, output, status=None, workers=WORKERS, also=None):
    """Runs a guest with each number of workers: output and status must be as expected, and all traces one. `also(run)` yields what
    else is wrong with a run."""
    first = None
    for count in workers:
        run = guest.run(count, room)
        first = first or run
        for it in [*faults(run, first, output, status), *(also(run) if also else ())]:
            tally.fail(f"{name} with {count} workers: {it}")


def faults(run, first, output, status):
    """Yields in what a run differs from the expected output and status, and from the first run."""
    if status is not None and run.status != status:
        yield f"status {run.status}, wanted {status}: {run.errors[:200].decode(errors='replace')}"
    if run.output != output:
        yield first_difference(run.output, output)
    if run.trace is None or run.trace != first.trace:
        yield "another trace"
