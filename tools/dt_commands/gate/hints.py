"""Traces the hints that the C library gives to tools that look for races, and compares them with what they must be.

guest/tests/hints.c has a row for each function that orders threads, gives memory or has data of the library's own, and for some that must
execute no hint. guest/tests/hints.wanted has a line for each thread's row, with its hints in order, so a lost or moved hint fails. The other
programs of guest/tests named here are traced whole: each thread must leave what it entered. The debugger executes them, with a breakpoint at
each hint. DTHREADS names the program, or else ./dthreads.
"""
import os
import re
import subprocess
import sys
import tempfile
from collections import namedtuple

from dt_commands import guest_runs, guest_tests
from dt_commands.gdb_packets import Debugged
from dt_commands.texts import contents, first_difference, write_file

NAME = "hints"
WANTED = f"{guest_tests.FOLDER}/{NAME}.wanted"
# Programs in which each thread leaves what it entered, also if it is cancelled, jumps out of a signal's handler or ends the run.
BALANCED = ["aborts", "alarm_ends", "atomics", "barriers", "c11", "cancel", "cancel_points", "conditions", "detached", "ends", "joins",
            "mutexes", "named_semaphores", "once_keys", "others", "pipes", "plusplus", "poll_signals", "pool", "raises", "readers_writers",
            "robust", "semaphores", "signals", "threads"]
TOOLS = "riscv64-unknown-elf"
HEAP, STACK = 0x20000000, 0x7ffc0000
# From here on the words are no addresses: what the library names of a thread, four words for each call of pthread_create.
MOMENTS, MOMENT_NAMES = 0x80000000, ["start", "end", "signals"]
# A hint that a thread executed: where, its kind, and the values of its two registers.
Hint = namedtuple("Hint", "thread pc kind first second")
ROW = "row_"
# Kinds of hints by the immediate of their instruction (guest/library/threads/hints.h).
KINDS = {1: "caller", 2: "length", 3: "begin", 4: "dead", 5: "atomic_load", 6: "atomic_store", 7: "seen_acquire", 8: "fence_release",
         9: "fence_acquire", 10: "relaxed_release", 16: "lock", 17: "share", 18: "try_lock", 19: "try_share", 20: "unlock",
         32: "unlock_of_anothers", 33: "unlock_of_free", 34: "end_with_lock", 35: "destroy_of_held", 36: "destroy_of_waited",
         37: "wait_without_lock", 38: "wait_with_another", 39: "taken_twice", 40: "write_by_reader"}
# Those whose word is a number, and those that have none.
NUMBERED, BARE = ("length", "begin"), ("enter", "leave", "fence_release", "fence_acquire")
# Functions whose hints a thread executes outside of all rows, as it begins and ends. That of assembler has no size.
LIVES = ("dthreads_thread_entry", "dthreads_thread_run", "dthreads_own_robust_leave", "dthreads_own_readings_drop", "dthreads_own_thread_leave")


def kind_of(word):
    """Returns the kind of the hint that a word encodes, or None: SLT, SLTU and SLTI with x0 as their target (ISA, section 2.9)."""
    first, second, function = word >> 15 & 31, word >> 20 & 31, word >> 12 & 7
    if word & 0x7fff == 0x2013:
        return KINDS.get(word >> 20)
    if word & 0xfe000fff != 0x33 or function not in (2, 3):
        return None
    kinds = {(2, True, False): "acquire", (2, False, True): "release", (2, False, False): "leave", (3, False, False): "enter",
             (3, True, True): "fresh"}
    return kinds.get((function, first != 0, second != 0))


class Program:
    """A built program: its hints, as words by their addresses, and its symbols, each with its address, size and name."""

    def __init__(self, elf):
        self.elf = elf
        listing = self.said("objdump", "-d")
        words = {int(at, 16): int(word, 16) for at, word in re.findall(r"(?m)^\s*([0-9a-f]+):\s+([0-9a-f]{8})\s", listing)}
        self.hints = {at: word for at, word in words.items() if kind_of(word)}
        found = re.findall(r"(?m)^([0-9a-f]+) (?:([0-9a-f]+) )?\w (\S+)$", self.said("nm", "-S"))
        self.symbols = sorted((int(at, 16), int(size or "10", 16), name) for at, size, name in found if size or name in LIVES)

    def said(self, tool, *words):
        return subprocess.run([f"{TOOLS}-{tool}", *words, self.elf], stdout=subprocess.PIPE, check=True, text=True).stdout

    def symbol_at(self, address):
        """Returns the symbol that covers an address, or None."""
        return next((it for it in self.symbols if it[0] <= address < it[0] + it[1]), None)


class Traced(Debugged):
    """A program in the debugger, with a breakpoint at each of its hints."""

    def __init__(self, program, given):
        super().__init__(program.elf, *(["--input", given] if given else []))
        self.program = program
        self.ask("qSupported:swbreak+")
        for at in program.hints:
            self.ask(f"Z0,{at:x},4")

    def hints(self):
        """Yields the hints in the order in which the run executes them."""
        said = self.ask("vCont;c")
        while said.startswith("T05") and "replaylog" not in said:
            if self.pc_in(said) in self.program.hints:
                yield self.hint(int(re.search(r"thread:([0-9a-f]+)", said)[1], 16) - 1, self.pc_in(said))
            # (a breakpoint at the place itself would stop the run again)
            said = self.ask("vCont;s")
            if said.startswith("T05") and "replaylog" not in said and self.pc_in(said) not in self.program.hints:
                said = self.ask("vCont;c")

    def pc_in(self, said):
        return int.from_bytes(bytes.fromhex(re.search(r";20:([0-9a-f]{8})", said)[1]), "little")

    def hint(self, thread, pc):
        word, registers = self.program.hints[pc], bytes.fromhex(self.ask("g"))
        value = lambda number: int.from_bytes(registers[4 * number:4 * number + 4], "little")
        return Hint(thread, pc, kind_of(word), value(word >> 15 & 31), value(word >> 20 & 31))


def traced(program, given=None):
    """Returns the hints that a run of the program executes."""
    with Traced(program, given) as debugged:
        return list(debugged.hints())


def unbalanced(hints):
    """Yields in which thread something is left that wasn't entered, or more than one stays entered at the end."""
    depths = {}
    for it in hints:
        depths[it.thread] = depths.get(it.thread, 0) + {"enter": 1, "leave": -1}.get(it.kind, 0)
        if depths[it.thread] < 0:
            yield f"thread {it.thread} leaves at {it.pc:08x} what it hasn't entered"
            depths[it.thread] = 0
    # (a thread that has ended waits in the library for the next start routine)
    yield from (f"thread {thread} has entered {depth} times at its end" for thread, depth in sorted(depths.items()) if depth > 1)


class Rows:
    """The rows of each thread, with their hints as texts. What a thread executes elsewhere is no row."""

    def __init__(self, program):
        self.program, self.lines, self.open = program, [], {}

    def name_of(self, address):
        """Returns how a line names an object."""
        found = self.program.symbol_at(address)
        if address >= MOMENTS:
            number, moment = divmod(address - MOMENTS, 4)
            return f"{MOMENT_NAMES[moment]} of {number}"
        if not found:
            return "heap" if HEAP <= address < STACK else "stack" if address >= STACK else f"{address:x}"
        start, _, name = found
        return name + (f"+{address - start}" if address != start else "")

    def row_of(self, hint):
        found = self.program.symbol_at(hint.first if hint.kind == "acquire" else hint.second)
        name = found[2] if found else ""
        return re.sub(r"\.\d+$", "", name[len(ROW):]) if name.startswith(ROW) else None

    def take(self, hint):
        row = self.row_of(hint) if hint.kind in ("acquire", "release") else None
        if row and hint.kind == "acquire":
            self.open[hint.thread] = [f"thread {hint.thread} {row}:"]
            self.lines.append(self.open[hint.thread])
        elif row:
            del self.open[hint.thread]
        elif hint.thread in self.open:
            self.open[hint.thread].append(self.text_of(hint))
        elif self.function_of(hint) in LIVES:
            self.lines.append([f"thread {hint.thread} in {self.function_of(hint)}:", self.text_of(hint)])

    def function_of(self, hint):
        found = self.program.symbol_at(hint.pc)
        return found and found[2]

    def text_of(self, hint):
        if hint.kind in BARE:
            return hint.kind
        if hint.kind == "fresh":
            return f"fresh({self.name_of(hint.first)}, {hint.second})"
        if hint.kind == "caller":
            return f"caller({self.place_of(hint.first)})"
        return f"{hint.kind}({hint.first if hint.kind in NUMBERED else self.name_of(hint.second if hint.kind == 'release' else hint.first)})"

    def place_of(self, address):
        """Returns how a line names a place in the program: by its function."""
        found = self.program.symbol_at(address)
        return found[2] if found else f"{address:x}"


def built(name, room):
    return Program(guest_runs.built(["-O2", "-w", guest_tests.source_of(name)], f"{room}/{name}.elf", guest_tests.FOLDER))


def rows(room):
    """Returns the text of the rows, and what is wrong with the whole trace."""
    program, given = built(NAME, room), f"{room}/input"
    write_file(given, "a line of input\n" * 2000)
    found, hints = Rows(program), traced(program, given)
    for it in hints:
        found.take(it)
    return "".join(" ".join(line) + "\n" for line in found.lines), list(unbalanced(hints))


def arguments(parser):
    guest_runs.with_share(parser)


def test_program(tally, room, name):
    if name == NAME:
        text, wrong = rows(room)
        if text.encode() != contents(WANTED):
            wrong.append(first_difference(text.encode(), contents(WANTED)))
    else:
        given = f"{guest_tests.FOLDER}/{name}.in"
        wrong = list(unbalanced(traced(built(name, room), given if os.path.exists(given) else None)))
    for it in wrong:
        tally.fail(f"{name}: {it}")


def test(options):
    """Traces the hints of guest/tests/hints.c, and those of other programs, in which each thread leaves what it entered."""
    every = guest_runs.share(options.share, [NAME, *BALANCED])
    return guest_runs.all_tried("programs", every, test_program, ": the expected hints, and each thread leaves what it entered", str)


def write(options):
    """Traces the hints of guest/tests/hints.c, and writes the lines that they must be."""
    with tempfile.TemporaryDirectory() as room:
        text, wrong = rows(room)
    for it in wrong:
        print(it, file=sys.stderr)
    write_file(WANTED, text)
    return 1 if wrong else 0
