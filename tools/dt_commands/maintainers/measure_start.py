"""Measures how long ./dthreads and guest/dthreads-exec take before the program does anything.

It prints milliseconds of each start and of the processor: the least and the median of some rounds. The program alone is the one that
./dthreads starts, called by its path; dthreads-exec runs the smallest sample in C with that program, and once more by way of ./dthreads.
"""
import os
import resource
import statistics
import subprocess
import time

from dt_commands import built_from, release
from dt_commands.measuring import show, with_rounds
from dt_commands.repository import TOP

SAMPLE = f"{TOP}/samples/c/counter.elf"
NO_PROGRAM = "there is no program of these sources: `./dthreads --build` builds it"


def arguments(parser):
    with_rounds(parser, 30)


def program():
    """Returns the program that ./dthreads starts, which must not have to be built."""
    recorded = built_from.read(f"{TOP}/{release.RECORD}")
    if release.is_built():
        return release.BUILT
    if recorded and recorded[1] == built_from.listed():
        return f"{TOP}/{release.FILE}"
    raise SystemExit(NO_PROGRAM)


def processor_seconds():
    used = resource.getrusage(resource.RUSAGE_CHILDREN)
    return used.ru_utime + used.ru_stime


def started(command, named):
    """Returns the seconds that a start of a command takes, and those of the processor, with DTHREADS naming this program."""
    environment = {name: value for name, value in os.environ.items() if name != "DTHREADS"}
    environment.update({"DTHREADS": named} if named else {})
    begun, before = time.perf_counter(), processor_seconds()
    subprocess.run(command, stdin=subprocess.DEVNULL, stdout=subprocess.DEVNULL, check=True, env=environment)
    return time.perf_counter() - begun, processor_seconds() - before


def measure(options):
    """Measures how long a start of ./dthreads and of guest/dthreads-exec takes."""
    alone = program()
    rows = {
        "the program alone": ([alone, "--version"], None),
        "./dthreads": ([f"{TOP}/dthreads", "--version"], None),
        "the program alone, a sample": ([alone, "run", SAMPLE], None),
        "guest/dthreads-exec, the sample": ([f"{TOP}/guest/dthreads-exec", SAMPLE], alone),
        "the same by ./dthreads": ([f"{TOP}/guest/dthreads-exec", SAMPLE], None),
    }
    show(["Start", "Least ms", "Median ms", "Least ms of the processor"])
    show(["---"] * 4)
    for name, (command, named) in rows.items():
        walls, used = zip(*(started(command, named) for _ in range(options.rounds)))
        show([name, *(f"{1000 * it:.1f}" for it in (min(walls), statistics.median(walls), min(used)))])
    return 0
