"""Tries many operands of floating point, and compares what the C library's operations make of them with this host's.

guest/tests/floats.c is built with that many cases for the guest machine and for this host, by `cc`: both print the same checksums.
"""
import subprocess
import tempfile

from dt_commands import guest_runs, guest_tests
from dt_commands.progress import Progress
from dt_commands.texts import first_difference

SOURCE = f"{guest_tests.FOLDER}/floats.c"
BOUND = str(2**40)


def arguments(parser):
    parser.add_argument("count", nargs="?", type=int, default=10**7, metavar="N", help="how many pairs of operands (default: 10,000,000)")


def output(words):
    return subprocess.run(words, stdin=subprocess.DEVNULL, stdout=subprocess.PIPE, check=True).stdout


def sweep(options):
    """Compares sums, differences, products and quotients of many operands with those of this host."""
    cases = f"-DCASES={options.count}"
    with tempfile.TemporaryDirectory() as room, Progress("sweeps of operands", 1):
        elf = guest_runs.built(["-O2", cases, SOURCE], f"{room}/guest.elf")
        subprocess.run(["cc", "-O2", "-ffp-contract=off", cases, "-o", f"{room}/host", SOURCE], check=True)
        guest = output([guest_runs.program(), "run", elf, "--bound", BOUND])
        host = output([f"{room}/host"])
    if guest != host:
        print(first_difference(guest, host))
        return 1
    print(f"{options.count:,} pairs of operands: the results of this host")
    return 0
