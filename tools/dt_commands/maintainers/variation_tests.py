"""The tests of what the C library varies if the run has a number: the programs of guest/tests/variations, and those of guest/tests again.

Each variation must happen with some number, and never without one; guest/tests/variations/list has the programs. The programs of
guest/tests must give what they always give with each number, but for those that guest/tests/variations/others names. DTHREADS names the
program to run them with, or else ./dthreads.
"""
import os

from dt_commands import guest_runs, guest_tests, numbered_runs
from dt_commands.texts import contents, rows_of

FOLDER = f"{guest_tests.FOLDER}/variations"


def arguments(parser):
    parser.add_argument("names", nargs="*", metavar="NAME", help="the programs, of guest/tests or of its folder variations (default: all)")
    parser.add_argument("--numbers", type=int, default=50, metavar="N", help="how many numbers are tried, from 1 on (default: 50)")
    numbered_runs.with_command(parser)
    guest_runs.with_share(parser)


def test_variation(tally, room, options, name, mask, choices="0"):
    """Tries a program whose status has a bit for each variation that happened."""
    program = numbered_runs.Numbered([f"{name}.c"], f"{room}/{name}.elf", FOLDER, options.command)
    if program.said is not None:
        tally.fail(f"{program.said}{name}: doesn't build")
        return
    without, _ = program.run(0, int(choices))
    if without != 0:
        tally.fail(f"{name}: status {without} without a number")
    found = 0
    for number in range(1, options.numbers + 1):
        status, _ = program.run(number, int(choices))
        if status is None or status & ~int(mask):
            tally.fail(f"{name}: status {status} with number {number}")
            return
        found |= status
    if found != int(mask):
        tally.fail(f"{name}: of the variations {mask} only {found} happened with {options.numbers} numbers")


def test_right(tally, room, options, name, status, *words):
    """Tries a program of guest/tests, which a number must not change."""
    if guest_tests.lacking(words):
        print(f"{name}: left out, {guest_tests.lacking(words)} wasn't done")
        return
    given = f"{guest_tests.FOLDER}/{name}.in"
    cc = [*guest_tests.of_compiler(words), guest_tests.source_of(name)]
    run = {"after": guest_tests.of_run(words), "given": given if os.path.exists(given) else None}
    program = numbered_runs.Numbered(cc, f"{room}/{name}.elf", guest_tests.FOLDER, options.command, **run)
    if program.said is not None:
        tally.fail(f"{program.said}{name}: doesn't build")
        return
    wanted = int(status), contents(f"{guest_tests.FOLDER}/{name}.out")
    failing = [it for it in range(1, options.numbers + 1) if program.run(it) != wanted]
    if failing:
        tally.fail(f"{name}: another output or status with {len(failing)} of {options.numbers} numbers, first {failing[0]}")


def tasks(options):
    """Returns what is tried: a name and a call each."""
    others = {it[0] for it in rows_of(f"{FOLDER}/others")}
    every = [(row, test_variation) for row in rows_of(f"{FOLDER}/list")]
    every += [(row, test_right) for row in rows_of(f"{guest_tests.FOLDER}/list") if row[0] not in others]
    return [(row[0], lambda tally, room, row=row, does=does: does(tally, room, options, *row))
            for row, does in every if not options.names or row[0] in options.names]


def test(options):
    """Tries what the C library varies: each variation happens with some number and never without one, and right programs stay right."""
    every = guest_runs.share(options.share, tasks(options))
    well = f", with {options.numbers} numbers: each variation happens, none without a number, and right programs stay right"
    return guest_runs.all_tried("programs", every, lambda tally, room, it: it[1](tally, room), well)
