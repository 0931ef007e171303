"""Measures what a quantum does to programs of Debian that share work between four threads.

By hand, and only with a network: it fetches and builds Debian's sources as `tools/dt test real` does. Programs in C++ need
guest/build-libstdcxx first. Like `tools/dt measure quantum` it prints how many processors have work at a time and how many turns the run
takes, or, with `times`, seconds with 1, 2 and 4 workers: the least of some rounds. DTHREADS names the program to run them with, or else
./dthreads.
"""
import os

from dt_commands import guest_runs, real_programs
from dt_commands.measure_c_samples import Trace
from dt_commands.measure_quantum import QUANTA
from dt_commands.measure_quantum import timed
from dt_commands.measuring import BOUND, seconds_of, table, with_rounds
from dt_commands.real_list import PROGRAMS, clauses, own_text, pictures
from dt_commands.texts import write_file

LINES = 530000
# Of a program, and of a solver that finds that there is no solution.
STATUSES = (0, 20)


def lines():
    """Returns numbers, a line each, in no order."""
    number, made = 12345, []
    for _ in range(LINES):
        number = (number * 1103515245 + 12345) % 2 ** 31
        made.append("%06x\n" % (number >> 7 & 0xffffff))
    return "".join(made).encode()


# The programs of tools/guests/real/list that are measured: of each its words here, and what makes its input. 7zz compresses a MiB at a
# time, and sort shares its work if there are more than 262,144 lines.
MEASURED = {
    "pigz": (["-p4", "-n", "-c"], own_text),
    "lbzip2": (["-n", "4", "-1", "-c"], lambda: own_text()[:600000]),
    "7zz": (["a", "-txz", "-mx1", "-mmt4", "-si", "-so", "text"], lambda: own_text() * 4),
    "sort of coreutils": (["--parallel=4", "-S", "40M", "-o", "/tmp/sorted"], lines),
    "cryptominisat": (["--threads", "4", "--verb", "0"], clauses),
    "x264": (["--threads", "4", "--qp", "26", "--demuxer", "raw", "--input-res", "176x144", "--muxer", "raw", "-o", "-", "-"], pictures),
}


def arguments(parser):
    parser.add_argument("what", nargs="?", choices=["side-by-side", "times"], default="side-by-side")
    parser.add_argument("--sources", metavar="FOLDER", help="a folder that keeps the fetched archives, and has them from an earlier call")
    parser.add_argument("--built", metavar="FOLDER", help="a folder that keeps the built programs, and has them from an earlier call")
    parser.add_argument("--only", metavar="NAME", action="append", help="one of the programs alone")
    with_rounds(parser, 3)


def measure(options):
    """Measures what a quantum does to programs of Debian."""
    os.environ["DTHREADS"] = guest_runs.program()

    def counted(command, trace, **how):
        seconds_of([*command[:2], "--trace", trace, *command[2:]], **how)
        told = Trace(trace)
        return f"{told.instructions / told.path:.2f} ({told.turns:,} turns)"

    def rows(program, room):
        archives = real_programs.Archives(os.path.abspath(options.sources or f"{room}/sources"))
        elf = real_programs.Builds(archives, os.path.abspath(options.built or f"{room}/built"), 2).build(program, "elf")[0]
        (words, made), cells, how = MEASURED[program.name], [], {"given": f"{room}/input", "statuses": STATUSES}
        write_file(how["given"], made())
        for quantum in QUANTA:
            command = [real_programs.kit("dthreads-exec"), elf, "--bound", BOUND, "--quantum", str(quantum or "none"), "--", *words]
            cells.append(timed(command, options.rounds, **how) if options.what == "times" else counted(command, f"{room}/trace", **how))
        yield [" ".join([program.name, *words]), *cells]

    chosen = [it for it in PROGRAMS if it.name in (options.only or MEASURED)]
    return table(["Program", *(f"quantum {it:,}" if it else "none" for it in QUANTA)], chosen, rows)
