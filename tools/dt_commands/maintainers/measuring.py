"""What the measurements share: tables in Markdown, what commands take, and the samples in C with more work."""
import subprocess
import tempfile
import time

from dt_commands import c_samples, guest_runs
from dt_commands.progress import Progress
from dt_commands.texts import contents, write_file

BOUND = "100000000000"
# What makes a sample larger, and how often its input then has the text of the small one's.
LARGER = {
    "histogram": ["-DPIXELS=400000"],
    "kmeans": ["-DPOINTS=20000"],
    "linear_regression": ["-DPOINTS=1000000"],
    "matrix_multiply": ["-DSIZE=200"],
    "principal_components": ["-DROWS=120", "-DCOLUMNS=300"],
    "reverse_index": ["-DLINES=4800"],
    "stencil": ["-DSIZE=240", "-DSTEPS=40"],
    "string_match": ["-DINPUT=1000000"],
    "word_count": ["-DINPUT=1000000"],
}
REPEATED = 300


def with_rounds(parser, default):
    parser.add_argument("rounds", nargs="?", type=int, default=default, metavar="ROUNDS", help=f"how many rounds (default: {default})")


def show(cells):
    """Prints a row of a table."""
    print(f"| {' | '.join(map(str, cells))} |", flush=True)


def table(columns, things, rows):
    """Prints a table: of each thing, which has a name, the rows that `rows(thing, room)` yields, given a folder to work in."""
    show(columns)
    print("|---" * len(columns) + "|", flush=True)
    with tempfile.TemporaryDirectory(prefix="dt-measure-") as room, Progress("measured", len(things)) as progress:
        for it in progress.each(things, lambda it: it.name):
            for cells in rows(it, room):
                show(cells)
    return 0


def running(file, *words):
    """Returns the command that runs a guest, with a bound that it doesn't come to."""
    return [guest_runs.program(), "run", file, "--bound", BOUND, *words]


def seconds_of(*commands, given=None, statuses=(0, 1)):
    """Returns how long commands take that are started side by side, each with the input of a file. Each must end with one of the statuses."""
    begun, processes = time.perf_counter(), []
    for command in commands:
        with open(given or "/dev/null", "rb") as source:
            processes.append(subprocess.Popen(command, stdin=source, stdout=subprocess.DEVNULL))
    if not {it.wait() for it in processes} <= set(statuses):
        raise SystemExit(f"a run failed: {' '.join(commands[0])}")
    return time.perf_counter() - begun


def taken(command, given=None):
    """Returns the processor seconds of a command with the input of a file, its most memory in MiB, and what it says on standard error."""
    with open(given or "/dev/null", "rb") as source, tempfile.TemporaryFile() as errors:
        seconds, memory = guest_runs.taken(subprocess.Popen(command, stdin=source, stdout=subprocess.DEVNULL, stderr=errors))
        errors.seek(0)
        return seconds, memory / 1024, errors.read().decode(errors="replace")


def least(rounds, measured):
    """Returns the least of each number that a call returns, over some rounds, in each of which it is made once."""
    return [min(it) for it in zip(*(measured() for _ in range(rounds)))]


class Prepared:
    """A sample in C as it is measured, built with more work if it is to be large: its name, its program, and the file of its input."""

    def __init__(self, sample, is_large, room):
        self.name, self.program, self.given = sample.name, sample.program, f"{room}/input"
        text, is_larger = contents(sample.given) if sample.given else b"", is_large and sample.name in LARGER
        if is_larger:
            words = ["-O2", "-s", "-DCHECK=0", *LARGER[sample.name], f"{c_samples.FOLDER}/{sample.name}.c"]
            self.program = guest_runs.built(words, f"{room}/{sample.name}.elf")
        write_file(self.given, text * (REPEATED if is_larger else 1))
