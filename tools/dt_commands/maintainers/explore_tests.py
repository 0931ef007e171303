"""The programs with one bug each of guest/tests/explore: which numbers show the bug, and that their right twins never fail.

Without --command a number is that of the library's variation alone, and the schedule stays. Words of one's own vary what they say:
`--command "./dthreads run FILE --quantum NUMBER"` tries quanta. DTHREADS names the program to run them with, or else ./dthreads.
"""
import os
import tempfile
from concurrent.futures import ThreadPoolExecutor

from dt_commands import guest_runs, guest_tests, numbered_runs
from dt_commands.progress import Progress
from dt_commands.texts import rows_of

FOLDER = f"{guest_tests.FOLDER}/explore"
# For how many numbers it is told how many bugs are expected.
RUNS = 100


class Bug:
    """A line of the list: the program, the status of a run that fails, the kind, and the numbers that showed it."""

    def __init__(self, name, status, *kind):
        self.name, self.status, self.kind = name, int(status), " ".join(kind)
        self.plain, self.numbers, self.tried = False, [], 0

    def chance(self, runs):
        """Returns how likely so many numbers show the bug, by the share of those that did."""
        return 1 - (1 - len(self.numbers) / self.tried) ** runs if self.tried else 0

    def row(self):
        """Returns the line that tells of it."""
        first = self.numbers[0] if self.numbers else "-"
        share = f"{len(self.numbers)} of {self.tried}"
        return f"{self.name:22}{self.kind:34}{'yes' if self.plain else '-':>6}{first:>7}  {share}"


def arguments(parser):
    parser.add_argument("names", nargs="*", metavar="NAME", help="the programs (default: all)")
    parser.add_argument("--numbers", type=int, default=100, metavar="N", help="how many numbers are tried, from 1 on (default: 100)")
    parser.add_argument("--least", type=int, default=0, metavar="N", help="fails if fewer of the bugs are found (default: 0)")
    parser.add_argument("--lanes", type=int, default=os.cpu_count(), metavar="N", help="how many programs are tried at once")
    numbered_runs.with_command(parser)


def built(tally, bug, room, options, words=()):
    """Builds a program, or its twin. Returns None if it isn't built, which is told."""
    file = f"{room}/{bug.name}{''.join(words)}.elf"
    program = numbered_runs.Numbered(["-Wall", "-Werror", *words, f"{bug.name}.c"], file, FOLDER, options.command)
    if program.said is None:
        return program
    tally.fail(f"{program.said}{bug.name}: doesn't build")
    return None


def try_bug(tally, room, options, bug):
    """Runs a program with each number, and notes which show its bug. It may fail in no other way."""
    program = built(tally, bug, room, options)
    if not program:
        return
    bug.tried, bug.plain = options.numbers, program.run(0)[0] == bug.status
    for number in range(1, options.numbers + 1):
        status, output = program.run(number)
        if status == bug.status:
            bug.numbers.append(number)
        elif status != 0:
            tally.fail(f"{bug.name}: status {status} with number {number}: {output[-200:].decode(errors='replace')}")


def try_twin(tally, room, options, bug):
    """Runs the right twin of a program with each number, and without one: it may never fail."""
    program = built(tally, bug, room, options, ["-DRIGHT"])
    failing = [it for it in range(options.numbers + 1) if program.run(it)[0] != 0] if program else []
    if failing:
        tally.fail(f"{bug.name}: its twin fails with {len(failing)} of {options.numbers} numbers, first {failing[0]}")


def test(options):
    """Runs the programs with one bug each with numbers from 1 on, and their right twins: tells which bugs are found."""
    tally = guest_runs.Tally()
    bugs = [it for it in (Bug(*row) for row in rows_of(f"{FOLDER}/list")) if not options.names or it.name in options.names]
    tally.tried = len(bugs)
    tasks = [(does, it) for it in bugs for does in (try_bug, try_twin)]
    with tempfile.TemporaryDirectory() as room, Progress("programs", len(tasks)) as progress, ThreadPoolExecutor(options.lanes) as lanes:
        begun = [(it.name, lanes.submit(does, tally, room, options, it)) for does, it in tasks]
        for _, task in progress.each(begun, lambda it: it[0]):
            task.result()
    print(f"{'program':22}{'kind':34}{'plain':>6}{'first':>7}  numbers that fail")
    print("\n".join(it.row() for it in bugs))
    found, plain = sum(bool(it.numbers) for it in bugs), sum(it.plain for it in bugs)
    print(f"{found} of {len(bugs)} bugs found with {options.numbers} numbers, {plain} without one")
    print(f"by these shares {sum(it.chance(RUNS) for it in bugs):.1f} are expected with {RUNS} numbers")
    if found < options.least:
        tally.fail(f"fewer than {options.least}")
    return tally.status("programs", f", and no right twin fails with {options.numbers} numbers")
