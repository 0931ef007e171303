"""Measures what a quantum does to ways to share work between four threads: a pool with a queue, a pipeline, and parts of a loop; and, if
guest/build-libgomp was done, OpenMP.

It prints how many processors have work at a time, which is the instructions of the run over those of its longest path and the same on
each machine, and how many turns the run takes. With `times` it prints seconds instead, with 1, 2 and 4 workers: the least of some
rounds. DTHREADS names the program to run them with, or else ./dthreads.
"""
import subprocess
from collections import namedtuple

from dt_commands import guest_runs, guest_tests
from dt_commands.measure_c_samples import Trace
from dt_commands.measuring import least, running, seconds_of, table, with_rounds
from dt_commands.repository import TOP

FOLDER = f"{TOP}/tools/guests"
# A way: what it is called, and the words for the compiler.
Kind = namedtuple("Kind", "name words")
KINDS = [
    Kind("pool with a queue", ["-DKIND=queue", f"{FOLDER}/parallel.c"]),
    Kind("pipeline", ["-DKIND=pipeline", f"{FOLDER}/parallel.c"]),
    Kind("parts of a loop", ["-DKIND=loop", f"{FOLDER}/parallel.c"]),
    Kind("OpenMP: a loop in equal parts", ["-fopenmp", "-DKIND=loop", f"{FOLDER}/openmp.c"]),
    Kind("OpenMP: a loop in 16 chunks", ["-fopenmp", "-DKIND=dynamic", f"{FOLDER}/openmp.c"]),
    Kind("OpenMP: 16 tasks", ["-fopenmp", "-DKIND=tasks", f"{FOLDER}/openmp.c"]),
]
QUANTA = [None, 1000000, 200000, 100000]


def arguments(parser):
    parser.add_argument("what", nargs="?", choices=["side-by-side", "times"], default="side-by-side")
    with_rounds(parser, 5)


def counted(command, trace):
    """Returns how many processors have work at a time, and the turns, of a run that leaves this trace."""
    seconds_of([*command, "--trace", trace])
    told = Trace(trace)
    return f"{told.instructions / told.path:.2f} ({told.turns:,} turns)"


def timed(command, rounds, **how):
    """Returns the seconds with each number of workers of a command, whose third word may be one of the run."""
    once = lambda workers: seconds_of([*command[:2], "--workers", workers, *command[2:]], **how)
    return ", ".join(f"{it:.2f}" for it in least(rounds, lambda: [once(it) for it in "124"]))


def measure(options):
    """Measures what a quantum does to programs of four threads: what runs side by side, or seconds with 1, 2 and 4 workers."""

    def rows(kind, room):
        elf = guest_runs.built(["-O2", *kind.words], f"{room}/kind.elf")
        commands = [running(elf, *(["--quantum", str(it)] if it else [])) for it in QUANTA]
        if len({subprocess.run(it, stdin=subprocess.DEVNULL, stdout=subprocess.PIPE, check=True).stdout for it in commands}) != 1:
            raise SystemExit(f"{kind.name}: the quantum changes the result")
        yield [kind.name, *(timed(it, options.rounds) if options.what == "times" else counted(it, f"{room}/trace") for it in commands)]

    kinds = [it for it in KINDS if not guest_tests.lacking(it.words)]
    return table(["Program", *(f"quantum {it:,}" if it else "none" for it in QUANTA)], kinds, rows)
