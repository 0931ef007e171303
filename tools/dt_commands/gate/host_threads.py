"""Host threads of runs: how many there are, and that those without work take no processor time. The standard streams of the program
too, since the gate calls this for the one that it built.

DTHREADS names the program to run the guests with, or else ./dthreads.
"""
import re
import resource
import subprocess
import tempfile
import time

from dt_commands import closed_streams, fixed_guests, guest_runs
from dt_commands.texts import read_text, write_file

# Workers, threads of the guest that have long work in one phase, and how many host threads there are then.
ROWS = [(1, 5, 1), (2, 2, 2), (2, 5, 2), (3, 5, 3), (4, 3, 3), (64, 1, 1), (64, 2, 2), (64, 5, 5)]
# With how many workers a guest runs whose threads do nothing but meet, on one host thread.
MEETING = [2, 64]
# For how many seconds a run is waited for until it has its host threads, and how often it is looked at.
PATIENCE, LOOKS = 20, 200
# How many instructions a thread executes while others wait, and how many seconds of processor time are no wait's.
BOUND, SPARE = "300000000", 0.3
# The status of a run that came to its bound.
TRAPPED = 120
# With how many workers these runs are made, and how many rounds the thread that waits counts before: so many that a worker has drawn the
# other thread's job by then, whose end the caller then waits for.
WAITING = [(2, 1), (64, 1), (2, 5_000_000), (64, 5_000_000)]


def host_threads(process):
    """Returns how many host threads a process has."""
    return int(re.search(r"^Threads:\s+(\d+)$", read_text(f"/proc/{process.pid}/status"), re.M)[1])


def started(file, workers, wanted):
    """Returns how many host threads a run without end has, once it has as many as it should or the time is up."""
    process = subprocess.Popen([guest_runs.program(), "run", file, "--workers", str(workers)], stdin=subprocess.DEVNULL)
    try:
        for _ in range(LOOKS):
            time.sleep(PATIENCE / LOOKS)
            if host_threads(process) >= wanted:
                break
        time.sleep(PATIENCE / LOOKS)
        return host_threads(process)
    finally:
        process.kill()
        process.wait()


def count_fails_in(room, guest, workers, wanted, what):
    """Counts host threads of an endless run. Returns whether it has others than it should."""
    file = f"{room}/guest.elf"
    write_file(file, guest)
    found = started(file, workers, wanted)
    print(f"{workers} workers, {what}: {found} host threads{'' if found == wanted else f', not {wanted}'}", flush=True)
    return found != wanted


def count_fails(room):
    """Counts host threads of endless runs. Returns how many runs had others than they should."""
    failed = 0
    for workers, busy, wanted in ROWS:
        guest = fixed_guests.endless(busy - 1)
        failed += count_fails_in(room, guest, workers, wanted, f"{busy} threads with work")
    for workers in MEETING:
        failed += count_fails_in(room, fixed_guests.meeting(4), workers, 1, "5 threads that meet")
    return failed


def processor_seconds():
    spent = resource.getrusage(resource.RUSAGE_CHILDREN)
    return spent.ru_utime + spent.ru_stime


def wait_fails(room):
    """Looks at the processor time of runs in which all but one thread wait. Returns how many took more than their time."""
    file, failed = f"{room}/waiting.elf", 0
    for workers, rounds in WAITING:
        write_file(file, fixed_guests.waiting(rounds))
        before, begun = processor_seconds(), time.monotonic()
        words = [guest_runs.program(), "run", file, "--workers", str(workers), "--bound", BOUND]
        ran = subprocess.run(words, stdin=subprocess.DEVNULL, stdout=subprocess.DEVNULL, stderr=subprocess.DEVNULL)
        passed, spent = time.monotonic() - begun, processor_seconds() - before
        is_idle = spent <= passed + SPARE
        # (a run that doesn't come to its bound has told nothing)
        failed += not is_idle or ran.returncode != TRAPPED
        found = f"status {ran.returncode}, not {TRAPPED}" if ran.returncode != TRAPPED else f"{spent:.2f} s of processor time in {passed:.2f} s{'' if is_idle else ': somebody waits busily, or does the work once more'}"
        print(f"{workers} workers, one thread with work after {rounds} rounds of another: {found}", flush=True)
    return failed


def test(options):
    """Tests host threads of runs of the program, and its standard streams."""
    with tempfile.TemporaryDirectory(prefix="host-threads-") as room:
        failed = count_fails(room) + wait_fails(room)
    print(f"{len(ROWS) + len(MEETING) + len(WAITING)} runs, {failed} failed")
    return closed_streams.test(options) or (1 if failed else 0)
