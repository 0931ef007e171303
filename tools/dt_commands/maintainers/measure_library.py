"""Counts the instructions and turns of operations of the C library.

A program does each operation of tools/guests/operations.rows many times; a row of the table says how many instructions of the guest, and how
many turns, one takes, and how many it may take at most. They are the same on each machine. The status is 1 if an operation takes more.
DTHREADS names the program to run them with, or else ./dthreads.
"""
import re
import subprocess
from collections import namedtuple

from dt_commands import guest_runs
from dt_commands.measuring import running, table
from dt_commands.repository import TOP
from dt_commands.texts import contents

FOLDER = f"{TOP}/tools/guests"
RAN = re.compile(rb"ran=(\d+)$", re.M)
# What some operations read.
INPUT = bytes(1000)
Operation = namedtuple("Operation", "name program times parts most words code")


def operations():
    """Returns the operations, in the order of their list."""
    lines = contents(f"{FOLDER}/operations.rows").decode().splitlines()
    return [Operation(*(it.strip() for it in line.split(" | "))) for line in lines if not line.startswith("#")]


def arguments(parser):
    parser.add_argument("words", nargs="*", metavar="WORD", help="counts the operations that have one of these words in their names")


def counts(operation, code, room):
    """Returns how many instructions and turns a run takes that does an operation's code as often as it says."""
    words = ["-O2", "-w", "-fno-builtin", f"-DTIMES={operation.times}", f"-DOPERATION={code}", *([] if operation.words == "-" else operation.words.split())]
    elf = guest_runs.built([*words, f"{FOLDER}/{operation.program}.c", "-lm"], f"{room}/{operation.program}.elf")
    subprocess.run(running(elf, "--trace", f"{room}/trace"), input=INPUT, stdout=subprocess.DEVNULL, check=True)
    ran = [int(it) for it in RAN.findall(contents(f"{room}/trace"))]
    return sum(ran), len(ran)


def shown(count):
    return f"{count:,.2f}".rstrip("0").rstrip(".") if count < 10 else f"{count:,.0f}"


def is_over(operation, instructions, turns):
    """Returns whether an operation takes more than it may."""
    most, _, unit = operation.most.replace(",", "").partition(" ")
    return most != "-" and (turns if unit else instructions) > float(most)


def measure(options):
    """Counts the instructions and turns of operations of the C library, beside what they may take."""
    over = []

    def rows(it, room):
        many, none = counts(it, it.code, room), counts(it, "", room)
        instructions, turns = ((a - b) / int(it.times) / int(it.parts) for a, b in zip(many, none))
        over.extend([it.name] if is_over(it, instructions, turns) else [])
        yield [it.name, shown(instructions), shown(turns), it.most + (" over" if it.name in over else "")]

    chosen = [it for it in operations() if not options.words or any(word in it.name for word in options.words)]
    return table(["Operation", "Instructions", "Turns", "At most"], chosen, rows) or bool(over)
