"""Measures the guests of tools/guests/measured.c.

It prints a row of a table in Markdown for each: its milliseconds with 1 worker, how many times as fast it is with 2, 3 and 4 workers,
and how many times as fast four processes with 1 worker, side by side, do their work as one after another. All by the least times of some
rounds, on a quiet machine. DTHREADS names the program to run them with, or else ./dthreads. BEFORE names another one: then a column says
how many times as fast DTHREADS is with 1 worker.
"""
import os
from collections import namedtuple

from dt_commands import guest_runs
from dt_commands.measuring import least, running, seconds_of, table, with_rounds
from dt_commands.repository import TOP

SOURCE = f"{TOP}/tools/guests/measured.c"
# A guest: its name, what it does, with how many threads, how often, and how many instructions; and with how many threads the four
# processes do it.
Measured = namedtuple("Measured", "name does threads rounds worth apart")
GUESTS = [
    Measured("4 threads of 10 million instructions", "WORK", 4, 1, 10000000, 1),
    Measured("8 threads of 24 million instructions", "WORK", 8, 1, 24000000, 8),
    Measured("8 threads, 20 phases of 1 million instructions each", "WORK", 8, 20, 1000000, 8),
    Measured("8 threads, 1,000 phases of 10,000", "WORK", 8, 1000, 10000, 8),
    Measured("8 threads, 3,000 phases of 3,000", "WORK", 8, 3000, 3000, 8),
    Measured("8 threads, 5,000 phases of 1,000", "WORK", 8, 5000, 1000, 8),
    Measured("4 threads that call sync, 200,000 times each", "SYNC", 4, 200000, 0, 4),
    Measured("4 threads that store and call sync, 100,000 times each", "STORE", 4, 100000, 0, 4),
    Measured("4 threads at one mutex, 100,000 sections each", "MUTEX", 4, 100000, 0, 4),
    Measured("4 threads at a barrier, 100,000 times", "BARRIER", 4, 100000, 0, 4),
    Measured("4 threads that change 2 KiB in each of 64 pages, 100 times", "PAGES", 4, 100, 0, 4),
    Measured("4 threads that read in 128 pages, 10 million instructions", "READ", 4, 1, 10000000, 1),
]


def arguments(parser):
    with_rounds(parser, 20)
    parser.add_argument("word", nargs="?", default="", metavar="WORD", help="the guests whose names have this word (default: all)")


def built(guest, file, threads):
    words = ["-O2", "-s", f"-DDOES={guest.does}", f"-DTHREADS={threads}", f"-DROUNDS={guest.rounds}", f"-DWORTH={guest.worth}", SOURCE]
    return guest_runs.built(words, file)


def cells(guest, room, rounds, before):
    """Returns the cells of a guest: in each round, all that is measured is run in turn."""
    file, process = built(guest, f"{room}/guest.elf", guest.threads), built(guest, f"{room}/process.elf", guest.apart)
    alone = running(process, "--workers", "1")
    commands = [[running(file, "--workers", str(it))] for it in (1, 2, 3, 4)] + [[alone], [alone] * 4]
    commands += [[[before, *commands[0][0][1:]]]] if before else []
    one, two, three, four, apart, beside, *other = least(rounds, lambda: [seconds_of(*it) for it in commands])
    rates = [one / two, one / three, one / four, 4 * apart / beside, *(it / one for it in other)]
    return [f"{1000 * one:.0f}", *(f"{it:.2f}" for it in rates)]


def measure(options):
    """Measures guests that several host threads run, as rates of one worker's time."""
    before = os.environ.get("BEFORE")
    columns = ["Guest", "Milliseconds with 1 worker", "2 workers", "3", "4", "four processes", *(["before"] if before else [])]
    chosen = [it for it in GUESTS if options.word in it.name]
    return table(columns, chosen, lambda guest, room: [[guest.name, *cells(guest, room, options.rounds, before)]])
