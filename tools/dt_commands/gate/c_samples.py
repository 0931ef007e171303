"""The samples in C: sources and built files in samples/c, with what each must give.

samples/c/list has a line for each sample: its program, further words for `run`, its input, the expected output and the expected status. The
packages of the compiler must have the versions that guest/packages lists. DTHREADS names the program to run the samples with, or else
./dthreads.
"""
import os
import shutil
import subprocess
import sys
import tempfile

from dt_commands import guest_runs
from dt_commands.progress import Progress
from dt_commands.repository import TOP
from dt_commands.texts import contents, rows_of

FOLDER = f"{TOP}/samples/c"
WORKERS = (1, 2, 3, 4, 64)


class Sample:
    """A line of samples/c/list."""

    def __init__(self, name, words, given, output, status):
        self.name, self.words = name, [] if words == "-" else [words]
        self.given = None if given == "-" else f"{FOLDER}/{given}"
        self.output, self.status = f"{FOLDER}/{output}", int(status)

    @property
    def program(self):
        return f"{FOLDER}/{self.name}.elf"


def samples():
    """Returns the samples in C, in the order of the list."""
    return [Sample(*row) for row in rows_of(f"{FOLDER}/list")]


def tell_other_packages():
    """Says which packages have other versions than those that the files were built with."""
    for package, version in rows_of(f"{guest_runs.KIT}/packages"):
        ran = subprocess.run(["dpkg-query", "-W", "-f", "${Version}", package], stdout=subprocess.PIPE, stderr=subprocess.DEVNULL, text=True)
        if ran.stdout != version:
            print(f"{package} is {ran.stdout or 'missing'}, the samples were built with {version}", file=sys.stderr)


def built(room):
    """Builds the samples into a folder, and yields each with its file."""
    tell_other_packages()
    every = samples()
    with Progress("samples built", len(every)) as progress:
        for sample in progress.each(every, lambda it: it.name):
            yield sample, guest_runs.built(["-O2", "-s", f"{FOLDER}/{sample.name}.c"], f"{room}/{sample.name}.elf")


def check(options):
    """Builds the samples in C anew, and compares each with its file, byte for byte."""
    with tempfile.TemporaryDirectory() as room:
        differing = [sample.program for sample, file in built(room) if contents(file) != contents(sample.program)]
    for file in differing:
        print(f"{os.path.relpath(file, TOP)} differs", file=sys.stderr)
    if not differing:
        print(f"{len(samples())} samples built")
    return 1 if differing or not samples() else 0


def write(options):
    """Builds the samples in C anew, and puts them into samples/c."""
    with tempfile.TemporaryDirectory() as room:
        for sample, file in built(room):
            shutil.copyfile(file, sample.program)
    print(f"{len(samples())} samples built")
    return 0


def test_sample(tally, room, it):
    guest = guest_runs.Guest([guest_runs.program(), "run", it.program], it.words, it.given, is_merged=True)
    guest_runs.agree(tally, it.name, guest, room, contents(it.output), it.status, WORKERS)


def test(options):
    """Runs the built samples in C, each with 1, 2, 3, 4 and 64 workers: expected output and status, and one trace."""
    well = ", each with 1, 2, 3, 4 and 64 workers: the expected output and one trace"
    return guest_runs.all_tried("samples", samples(), test_sample, well, lambda it: it.name)
