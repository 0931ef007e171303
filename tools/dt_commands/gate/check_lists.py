"""Findings of programs in C that have one fault each, and of their right twins, which have none.

Each program of guest/tests/checks is run with --check and 1, 2, 4 and 64 workers, which must write the same list. NAME.wanted has its
lines, with file and line of each place by guest/dthreads-lines. It leaves out what a change of the library or the compiler moves:
addresses, turns, and places within functions. The twin of a program is the same file with -DRIGHT; its list must be empty. DTHREADS names
the program that runs the guests, or else ./dthreads.
"""
import glob
import os
import re
import subprocess

from dt_commands import guest_runs
from dt_commands.texts import first_difference, read_text, write_file

FOLDER = f"{guest_runs.KIT}/tests/checks"
LINES = f"{guest_runs.KIT}/dthreads-lines"
SECONDS = 120
# What is left out of a line: whole fields, and where in a function, or in the heap, something is.
MOVED = re.compile(r" (?:address|pc|turn|since)=[0-9a-f+]+(?= |$)")
WITHIN = re.compile(r"(\bin=[^\s+<]+)\+\d+")
BLOCK = re.compile(r"(\bblock=)[0-9a-f]{8}(?=\+)")


def names():
    """Returns the names of the programs."""
    return sorted(os.path.basename(it)[:-2] for it in glob.glob(f"{FOLDER}/*.c"))


def shown(text):
    """Returns the lines of a list without what moves."""
    return [BLOCK.sub(r"\1", WITHIN.sub(r"\1", MOVED.sub("", line))) for line in text.splitlines()]


def built(name, room, *words):
    """Builds a program in a folder from which its file has the name that lines give it."""
    elf = f"{room}/{name}{''.join(words)}.elf"
    said = guest_runs.compiled(["-O1", "-g", "-w", *words, f"{name}.c"], elf, FOLDER)
    return None if said is not None else elf


def list_of(elf, workers):
    """Returns the list of a run, or what went wrong in its place."""
    findings = f"{elf}.findings"
    if os.path.exists(findings):
        os.remove(findings)
    command = [guest_runs.program(), "run", elf, "--check", findings, "--workers", str(workers)]
    ran = subprocess.run(command, stdin=subprocess.DEVNULL, stdout=subprocess.DEVNULL, stderr=subprocess.PIPE, timeout=SECONDS, check=False)
    if not os.path.exists(findings):
        return f"no list: status {ran.returncode}, {ran.stderr[:200].decode(errors='replace')}"
    return read_text(findings)


def with_lines(elf, text):
    """Returns a list with the files and lines of its places, as guest/dthreads-lines names them from the folder of the programs."""
    ran = subprocess.run([LINES, elf], cwd=FOLDER, input=text, stdout=subprocess.PIPE, stderr=subprocess.PIPE, text=True, check=False)
    return ran.stdout


def found(tally, room, name, *words):
    """Returns the lines of a program's list, or None, with a failure told, if there is no one list."""
    elf = built(name, room, *words)
    if not elf:
        tally.fail(f"{name}: doesn't build")
        return None
    texts = {list_of(elf, it) for it in guest_runs.WORKERS}
    if len(texts) != 1:
        tally.fail(f"{name}: the workers change the list")
        return None
    return shown(with_lines(elf, min(texts)))


def test_program(tally, room, name):
    lines, right = found(tally, room, name), found(tally, room, name, "-DRIGHT")
    wanted = read_text(f"{FOLDER}/{name}.wanted").splitlines()
    if lines is not None and lines != wanted:
        tally.fail(f"{name}: " + first_difference("\n".join(lines).encode(), "\n".join(wanted).encode()))
    if right:
        tally.fail(f"{name}, the right twin: {right[:3]}")


def arguments(parser):
    guest_runs.with_share(parser)


def test(options):
    """Runs programs in C with one fault each with --check: the fault is found in its lines, and nothing in the right twin."""
    every = guest_runs.share(options.share, names())
    return guest_runs.all_tried("programs", every, test_program, ": the expected findings, and none in their right twins", str)


def write(options):
    """Runs the programs with one fault each with --check, and writes the lines that their lists must have."""
    tally = guest_runs.Tally()

    def write_program(_, room, name):
        lines = found(tally, room, name)
        if lines is not None:
            write_file(f"{FOLDER}/{name}.wanted", "".join(f"{it}\n" for it in lines))

    return guest_runs.all_tried("programs", names(), write_program, " written", str) or (1 if tally.failed else 0)
