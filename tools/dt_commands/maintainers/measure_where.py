"""Measures where the time of the samples goes, by part of the program.

It prints a table in Markdown. For each large sample in C that shares its work out, run with four workers, it has a row for the caller and
one for the three others: how many percent of the run's wall time each is at work, and what percent of that goes to each part of the program. Linux's perf samples the runs. DTHREADS
names the program to run them with, which must have its symbols, or else crates/command/out/command.
"""
import collections
import os
import shutil
import subprocess

from dt_commands import c_samples
from dt_commands.measuring import BOUND, LARGER, Prepared, table, with_rounds
from dt_commands.repository import TOP

WORKERS = 4
# How often a second perf looks.
LOOKS = 5000
# The parts, by how the names of their functions begin. The first one that fits counts.
PARTS = {
    "Instructions": ("hart::", "twins::view::"),
    "Pages": ("commit::", "paged_memory::", "twins::", "std_alloc::arc::", "core::slice::sort::", "__mem"),
    "Allocator": ("malloc", "_int_", "free", "cfree", "realloc", "calloc", "unlink_chunk", "sysmalloc", "std_alloc::"),
    "Turns": ("runtime::", "token::", "call_table::", "thread_table::", "condvar_barrier::"),
    "Handing over": ("phase_workers::", "worker_pool::", "claim_table::", "phase_jobs::", "segment::", "crossbeam_channel::", "core::thread::", "pthread_"),
}
KERNEL, OTHER = "Kernel", "Other"
COLUMNS = ["Sample", "Host threads", "At work", *PARTS, KERNEL, OTHER]


def arguments(parser):
    with_rounds(parser, 5)


def program():
    return os.path.realpath(os.environ.get("DTHREADS") or f"{TOP}/crates/command/out/command")


def part_of(name, where):
    """Returns the part that a function belongs to, by its name and by the file that it is in."""
    if where.startswith("(["):
        return KERNEL
    return next((part for part, heads in PARTS.items() if name.startswith(heads)), OTHER)


def counted(text):
    """Returns the seconds from the first look to the last, and how often perf saw the caller, and the other host threads, in each part."""
    times, seen = [], {"caller": collections.Counter(), "others": collections.Counter()}
    for line in text.splitlines():
        threads, at, _, name, *_, where = line.split()
        process, _, thread = threads.partition("/")
        times.append(float(at.rstrip(":")))
        seen["caller" if process == thread else "others"][part_of(name, where)] += 1
    return max(times) - min(times), seen


def looked_at(prepared, room):
    """Runs a sample once, and returns what perf saw."""
    data = f"{room}/perf.data"
    command = [program(), "run", prepared.program, "--bound", BOUND, "--workers", str(WORKERS)]
    record = ["perf", "record", "-q", "-F", str(LOOKS), "-e", "cpu-clock", "-o", data, *command]
    with open(prepared.given, "rb") as given:
        subprocess.run(record, stdin=given, stdout=subprocess.DEVNULL, stderr=subprocess.DEVNULL, check=False)
    script = ["perf", "script", "-i", data, "-F", "pid,tid,time,ip,sym,dso"]
    return counted(subprocess.run(script, capture_output=True, text=True, check=True).stdout)


def row(sample, threads, count, seen, looks):
    """Returns the cells of some host threads: so many looks could have seen each of them at work."""
    total = sum(seen.values()) or 1
    shares = [f"{100 * seen[part] / total:.1f}" for part in [*PARTS, KERNEL, OTHER]]
    return [sample, threads, f"{100 * total / count / looks:.0f}", *shares]


def rows(prepared, room, rounds):
    looks, seen = 0, {"caller": collections.Counter(), "others": collections.Counter()}
    for _ in range(rounds):
        taken, found = looked_at(prepared, room)
        looks += taken * LOOKS
        for threads, counts in found.items():
            seen[threads] += counts
    yield row(prepared.name, "caller", 1, seen["caller"], looks)
    yield row(prepared.name, "others", WORKERS - 1, seen["others"], looks)


def measure(options):
    """Measures where the time of the samples goes, by part of the program."""
    if not shutil.which("perf"):
        raise SystemExit("it needs Linux's perf")
    samples = [it for it in c_samples.samples() if it.name in LARGER]
    return table(COLUMNS, samples, lambda it, room: rows(Prepared(it, True, room), room, options.rounds))
