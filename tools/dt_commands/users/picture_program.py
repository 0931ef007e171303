"""What a picture tells by the program: where turns end, what their segments did most, and where the threads are at the run's end."""
import os
import re
import shutil
import subprocess
import sys
from collections import Counter

# The debugger's own modules: in the kit, which is beside the tools or, installed, two folders above.
FOLDERS = [os.path.join(os.path.dirname(os.path.realpath(__file__)), *[".."] * up, "guest") for up in (2, 3)]
GUEST = next((it for it in FOLDERS if os.path.isdir(f"{it}/debugger")), FOLDERS[0])
GDBS, ADDR2LINE = ("gdb-multiarch", "riscv64-unknown-elf-gdb"), "riscv64-unknown-elf-addr2line"
# At how many places a segment is looked at, and how many turns are looked at.
LOOKS, MOST = 8, 2000


def tool(*names):
    found = next(filter(None, map(shutil.which, names)), None)
    if not found:
        raise SystemExit(f"the command {names[0]} is missing: --program wants it")
    return found


def command_of(program, words):
    """Returns the command that debugs the run."""
    beside = os.path.join(os.path.dirname(GUEST), "dthreads")
    dthreads = os.environ.get("DTHREADS") or (beside if os.access(beside, os.X_OK) else "dthreads")
    return [dthreads, "debug", program, *words]


def debugger(name):
    """Returns a module of the kit's debugger."""
    sys.path.insert(0, f"{GUEST}/debugger")
    try:
        return __import__(name)
    finally:
        sys.path.pop(0)


def looks(turn):
    """Returns at how many instructions of a turn's segment it is looked at."""
    return sorted({turn.ran * (2 * at + 1) // (2 * LOOKS) for at in range(LOOKS)}) if turn.ran else []


def sampled(turns, command):
    """Returns for each turn the instructions that its thread is at, at some places of the segment."""
    engine, found = debugger("engine"), {}
    try:
        run = engine.Engine(command)
    except engine.Failure as why:
        raise SystemExit(f"{command[0]}: {why}") from None
    for it in turns:
        found[it.number] = [run.registers(it.thread)[engine.PC] for at in looks(it) if run.go(it.number, at)]
    run.end()
    return found


def lines_of(program, addresses):
    """Returns function and line of each instruction."""
    given = "".join(f"{it:#x}\n" for it in addresses)
    ran = subprocess.run([tool(ADDR2LINE), "-f", "-C", "-e", program], input=given, stdout=subprocess.PIPE, universal_newlines=True)
    said = ran.stdout.splitlines()
    found = {}
    for address, function, line in zip(addresses, said[::2], said[1::2]):
        path, _, number = re.sub(r" \(discriminator \d+\)$", "", line).rpartition(":")
        found[address] = (function, f" at {os.path.relpath(path)}:{number}" if path not in ("", "??") and number not in ("0", "?") else "")
    return found


def most_of(samples, lines):
    """Returns in words what a segment did at most of the places at which it was looked at."""
    functions = Counter(lines[it][0] for it in samples)
    function, count = functions.most_common(1)[0]
    line = Counter(lines[it][1] for it in samples if lines[it][0] == function).most_common(1)[0][0]
    return f"mostly in {function}{line}: {count} of {len(samples)} looks"


class Told:
    """What is told of a run by its program: words for turns, by their numbers, and words for its end."""

    def __init__(self, run, program, words):
        command, file = command_of(program, words), os.path.abspath(program)
        turns = run.turns if len(run.turns) <= MOST else []
        wanted = [f"{it.number + 1}:0:{it.thread}" for it in turns]
        found = debugger("elsewhere").places(tool(*GDBS), file, command, ["end", *wanted])
        by_position = dict(it for it in found if it[0] != "end")
        self.ends = {it.number: by_position.get(place, "") for it, place in zip(turns, wanted)}
        self.at_end = [place for position, place in found if position == "end"]
        samples = {number: some for number, some in sampled(turns, command).items() if some}
        lines = lines_of(program, sorted({it for some in samples.values() for it in some}))
        self.most = {number: most_of(some, lines) for number, some in samples.items()}

    def of_turn(self, number):
        """Returns what is told of a turn, in lines."""
        end = f"then {self.ends[number]}" if self.ends.get(number) else None
        return [it for it in (self.most.get(number), end) if it]

    def of_wait(self, number):
        """Returns where a thread waits after a turn, in words."""
        return self.ends.get(number, "")
