"""Compares how fast instructions are executed with tools/yardstick.c, a minimal interpreter in C.

It prints a row of a table in Markdown for each program: nanoseconds an instruction, the least of some rounds, and the rate of `dthreads run`
with one worker over the yardstick's. The programs are two of samples/ for some instructions, and the kernels in C, built with more rounds.
It needs a C compiler. DTHREADS names the program to run them with, or else ./dthreads.
"""
import re
import subprocess
import tempfile
from collections import namedtuple

from dt_commands import c_samples, guest_runs
from dt_commands.measuring import least, table, taken, with_rounds
from dt_commands.repository import TOP

COUNT = "500000000"
KERNELS = ["-O2", "-s", "-DROUNDS=40", f"{c_samples.FOLDER}/kernels.c"]
COLUMNS = ["Program", "Yardstick, ns an instruction", "`dthreads run`, ns an instruction", "Rate over the yardstick's"]
Program = namedtuple("Program", "name file")


def arguments(parser):
    with_rounds(parser, 8)


def both(yardstick, file):
    """Returns the nanoseconds an instruction of both, run in turn, so that a machine that changes its speed changes that of both."""
    said = subprocess.run([yardstick, file, COUNT], check=True, capture_output=True, text=True).stdout
    count, took = (int(it) for it in re.fullmatch(r"(\d+) instructions in (\d+) ns\n", said).groups())
    seconds = taken([guest_runs.program(), "run", file, "--workers", "1", "--bound", COUNT])[0]
    return took / count, 1e9 * seconds / count


def measure(options):
    """Prints how fast instructions are executed, beside a minimal interpreter in C."""
    with tempfile.TemporaryDirectory(prefix="yardstick-") as folder:
        yardstick = f"{folder}/yardstick"
        subprocess.run(["cc", "-O2", "-o", yardstick, f"{TOP}/tools/yardstick.c"], check=True)
        programs = [Program(it, f"{TOP}/samples/{it}.elf") for it in ("mixed", "counting")]
        programs.append(Program("kernels", guest_runs.built(KERNELS, f"{folder}/kernels.elf")))

        def rows(it, _):
            one, ours = least(options.rounds, lambda: both(yardstick, it.file))
            yield [it.name, f"{one:.2f}", f"{ours:.2f}", f"{one / ours:.2f}"]

        return table(COLUMNS, programs, rows)
