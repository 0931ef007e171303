"""Runs of the program with standard streams closed: no file may take the number of one.

Each command line is run with all streams open, and then with some of them closed. If it needs a closed input, it must say that it can't
read it. If it writes to a closed output, it must say that it can't, and leave the file as it was. Otherwise a closed stream changes nothing
but what goes through it. DTHREADS names the program to run, or else ./dthreads.
"""
import itertools
import os
import subprocess
import tempfile
from collections import namedtuple

from dt_commands import guest_runs
from dt_commands.repository import TOP
from dt_commands.texts import contents, write_file

SAMPLES = f"{TOP}/samples"
# What a run gave: its status, what came on standard output and on standard error, and what the file has that it was to write.
Run = namedtuple("Run", "status output errors file")
# A command line, and whether it reads standard input, which is INPUT: a packet of gdb's. FILE is the file that it writes, and has OLD before.
Line = namedtuple("Line", "words reads")
FILE, OLD, INPUT = "{file}", b"old", b"$?#3f"
# Guests: without output, with output, and one that traps, whose line goes to standard error.
GUESTS = ["race", "echo", "late-trap"]
RECORDS = [["--check", FILE], ["--report", FILE], ["--trace", FILE], ["--check", "-"], ["--report", "-"], ["--trace", "-"], []]
REDIRECTIONS = {0: "<&-", 1: ">&-", 2: "2>&-"}
CLOSED = [it for count in (1, 2, 3) for it in itertools.combinations(REDIRECTIONS, count)]


def lines():
    """Returns the command lines."""
    found = []
    for guest in GUESTS:
        program = f"{SAMPLES}/{guest}.elf"
        found += [Line(["run", program, *words], True) for words in RECORDS]
        found += [Line(["run", program, "--input", f"{SAMPLES}/race.trace", *words], False) for words in RECORDS]
    program, schedule = f"{SAMPLES}/race.elf", f"{SAMPLES}/race-one-worker.schedule"
    found += [Line(["replay", program, schedule, "--workers", "1"], True), Line(["debug", program], True)]
    found += [Line(words, False) for words in (["disasm", program], ["--help"], ["--version"], ["walk"], ["run", f"{SAMPLES}/no file"])]
    return found


def ran(line, closed, room):
    """Runs a command line with these streams closed."""
    file = f"{room}/file"
    write_file(file, OLD)
    words = [guest_runs.program(), *(it.replace(FILE, file) for it in line.words)]
    shell = ["sh", "-c", f'exec "$@" {" ".join(REDIRECTIONS[it] for it in closed)}', "sh", *words]
    done = subprocess.run(shell, input=INPUT, stdout=subprocess.PIPE, stderr=subprocess.PIPE)
    return Run(done.returncode, done.stdout, done.stderr, contents(file))


def wanted(line, closed, whole):
    """Returns what a command line must give with these streams closed, of which `whole` is what it gives with all open."""
    if 0 in closed and line.reads:
        run = Run(124, b"", b"cannot read standard input\n", OLD)
    elif 1 in closed and whole.output:
        run = Run(124, b"", b"cannot write standard output\n", OLD)
    else:
        run = whole
    return run._replace(output=b"" if 1 in closed else run.output, errors=b"" if 2 in closed else run.errors)


def line_fails(line, room):
    """Runs a command line with each choice of streams closed. Returns how many runs were wrong."""
    whole, failed = ran(line, (), room), 0
    for closed in CLOSED:
        run, right = ran(line, closed, room), wanted(line, closed, whole)
        if run != right:
            failed += 1
            what = " ".join([*line.words, *(REDIRECTIONS[it] for it in closed)]).replace(f"{TOP}/", "")
            print(f"dthreads {what}: {shown(run)}, not {shown(right)}", flush=True)
        if os.listdir(room) != ["file"]:
            raise SystemExit(f"dthreads {' '.join(line.words)}: it left {sorted(os.listdir(room))}")
    return failed


def shown(run):
    """Shows what a run gave, in a line."""
    return f"status {run.status}, output {run.output[:60]}, errors {run.errors[:60]}, file {(run.file or b'')[:60]}"


def test(options):
    """Tests runs of the program with standard streams closed."""
    with tempfile.TemporaryDirectory(prefix="closed-streams-") as room:
        failed = sum(line_fails(it, room) for it in lines())
    print(f"{len(lines()) * len(CLOSED)} runs with standard streams closed, {failed} failed")
    return 1 if failed else 0
