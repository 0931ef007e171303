"""Measures the samples in C.

It prints a row of a table in Markdown for each. `small` are the samples as they are, measured from trace and report, which are the same on
each machine. All else measures large ones: most of them are built anew with more work, and without the part in which one thread works
the result out again. `large` is their trace and report. `times` says how long they take with 1, 2 and 4 workers, and four processes with 1
worker each side by side, which is what the machine gives at best: as ratios of the least times of some rounds. Its last column is four
processes' time over four times that of 4 workers, by medians. `races` says how long a run with one worker takes, how many times the
processor time of that a run with `--check` takes, and the most memory that each has. `detectors` compares detectors of races for programs of
this machine: each sample is built for it by gcc with -O2, -g and -pthread, and run as it is, with ThreadSanitizer, and under
valgrind's helgrind and drd: how many times the processor time that takes, and how many different reports it gives; then the same of
`--check`. DTHREADS names the program to run them with, or else ./dthreads.
"""
import os
import re
import statistics
import subprocess

from dt_commands import c_samples
from dt_commands.measuring import LARGER, Prepared, least, running, seconds_of, table, taken
from dt_commands.texts import contents

DETECTORS = ["ThreadSanitizer", "helgrind", "drd"]
COLUMNS = {
    "small": ["Million instructions", "Turns", "Phases", "Changed pages", "Changes of pages", "Shared", "Clashes", "Side by side"],
    "times": ["Milliseconds with 1 worker", "Rate with 2", "Rate with 4", "Four processes", "Rate with 4 over that of four processes"],
    "races": ["Milliseconds without the list", "Times with it", "MiB without it", "MiB with it"],
    "detectors": ["Milliseconds natively", *(f"{how} {it}" for it in DETECTORS for how in ("times with", "reports of")),
                  "Milliseconds of `dthreads run`", "times with `--check`", "races"],
}
# How many rounds there are by default.
ROUNDS = {"times": 20, "races": 5, "detectors": 3}
# What is timed: with how many workers, and how many processes side by side.
TIMED = [(1, 1), (2, 1), (4, 1), (1, 4)]
CONTEXTS = re.compile(r"ERROR SUMMARY: \d+ errors from (\d+) contexts")
LEFT_OUT = re.compile(rb"^left out=(\d+)$", re.M)


def arguments(parser):
    parser.add_argument("what", nargs="?", choices=["small", "large", *ROUNDS], default="small")
    parser.add_argument("rounds", nargs="?", type=int, metavar="ROUNDS", help="how many rounds (default: 20 of times, 5 of races, 3 of detectors)")


class Trace:
    """What a trace tells: its turns, phases and instructions, and those of the longest path. The first turn of a thread in a phase
    ends a segment that runs beside the others'; further ones follow it."""

    def __init__(self, file):
        self.turns = self.instructions = self.path = longest = 0
        self.phases, seen = "0", set()
        with open(file, encoding="utf-8") as lines:
            for line in lines:
                phase, thread = line.split(" ", 2)[:2]
                ran = int(re.search(r".*ran=(\d+)", line)[1])
                if phase != self.phases:
                    self.path, longest, seen, self.phases = self.path + longest, 0, set(), phase
                if thread in seen:
                    self.path += ran
                else:
                    seen.add(thread)
                    longest = max(longest, ran)
                self.turns, self.instructions = self.turns + 1, self.instructions + ran
        self.path += longest


def counted(prepared, room, _):
    """Returns the cells of a sample's counts, from its trace and its report."""
    trace, report = f"{room}/trace", f"{room}/report"
    seconds_of(running(prepared.program, "--trace", trace, "--report", report), given=prepared.given)
    told = Trace(trace)
    pages = [dict(word.split("=") for word in line.split()) for line in contents(report).decode().splitlines()]
    sums = [sum(int(it[name]) for it in pages) for name in ("turns", "shared", "clashes")]
    return [f"{told.instructions / 1e6:.1f}", told.turns, told.phases, len(pages), *sums, f"{told.instructions / told.path:.1f}"]


def timed(prepared, _, rounds):
    """Returns the cells of a sample's times."""
    command = lambda workers: running(prepared.program, "--workers", str(workers))
    times = [[seconds_of(*[command(workers)] * count, given=prepared.given) for workers, count in TIMED] for _ in range(rounds)]
    one, two, four, apart = map(min, zip(*times))
    _, _, middle, middle_apart = map(statistics.median, zip(*times))
    rates = [one / two, one / four, 4 * one / apart, middle_apart / (4 * middle)]
    return [f"{1000 * one:.0f}", *(f"{it:.2f}" for it in rates)]


def with_list(prepared, races, rounds):
    """Returns the processor seconds and the MiB of a run with one worker, and those of one that writes a list of races."""
    command = running(prepared.program, "--workers", "1")
    return [least(rounds, lambda more=more: taken([*command, *more], prepared.given)[:2]) for more in ([], ["--check", races])]


def listed(prepared, _, rounds):
    """Returns the cells of a sample's runs without and with a list of races."""
    (plain, memory), (told, of_list) = with_list(prepared, os.devnull, rounds)
    return [f"{1000 * plain:.0f}", f"{told / plain:.1f}", f"{memory:.0f}", f"{of_list:.0f}"]


def native(name, room, *more):
    """Builds a sample for this machine, and returns its program."""
    program, larger = f"{room}/native{''.join(more)}", ["-DCHECK=0", *LARGER[name]] if name in LARGER else []
    words = ["gcc", "-O2", "-g", "-pthread", *more, *larger, f"{c_samples.FOLDER}/{name}.c", "-o", program, "-lm"]
    subprocess.run(words, check=True)
    return program


def reports_in(said):
    """Returns how many different reports a detector gave."""
    found = CONTEXTS.search(said)
    return int(found[1]) if found else said.count("WARNING: ThreadSanitizer")


def detected(prepared, room, rounds):
    """Returns the cells of a sample's runs on this machine, and as a guest."""
    plain, checked = native(prepared.name, room), native(prepared.name, room, "-fsanitize=thread")
    seconds = least(rounds, lambda: taken([plain], prepared.given)[:1])[0]
    cells = [f"{1000 * seconds:.0f}"]
    for command in ([checked], *(["valgrind", f"--tool={it}", plain] for it in DETECTORS[1:])):
        took = least(rounds, lambda command=command: taken(command, prepared.given)[:1])[0]
        cells += [f"{took / seconds:.0f}" if seconds else "-", reports_in(taken(command, prepared.given)[2])]
    (alone, _), (told, _) = with_list(prepared, f"{room}/races", rounds)
    races = contents(f"{room}/races")
    count = races.count(b"race ") + sum(map(int, LEFT_OUT.findall(races)))
    return [*cells, f"{1000 * alone:.0f}", f"{told / alone:.1f}", count]


CELLS = {"small": counted, "large": counted, "times": timed, "races": listed, "detectors": detected}


def measure(options):
    """Measures the samples in C: what they execute, how long they take with several workers, or what finding races takes."""
    what, rounds = options.what, options.rounds or ROUNDS.get(options.what)

    def rows(sample, room):
        yield [sample.name, *CELLS[what](Prepared(sample, what != "small", room), room, rounds)]

    return table(["Sample", *COLUMNS["small" if what == "large" else what]], c_samples.samples(), rows)
