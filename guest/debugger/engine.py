"""A second `dthreads debug` beside the one that gdb talks to: it looks at other positions of the same run while gdb stays where it is.

It speaks gdb's remote protocol over two pipes, and touches nothing but its own process.
"""
import re
import subprocess
from collections import namedtuple

# A position: how many of a turn's instructions are executed, its step, phase and thread, and whether it is the run's end.
Position = namedtuple("Position", "turn instructions step phase thread is_end")
# A turn of the trace; and a turn that changed some bytes of the shared memory: these bytes as its thread found them, as they are in the
# shared memory behind it, and as they were there before.
Turn = namedtuple("Turn", "number phase thread text")
Write = namedtuple("Write", "turn thread base stored before")
WHERE = re.compile(
    r"turn (\d+) phase (\d+) thread (\d+) \(gdb thread id \d+\), (?:(\d+) instructions? into the turn|(the run's end)); step (\d+)")
LINE = re.compile(r"(\d+): (\d+) (\d+) (.*)")
WRITER = re.compile(r"turn (\d+) thread (\d+): ([0-9a-f]*) -> ([0-9a-f]*)(?: \(shared before: ([0-9a-f]*)\))?")
SHOWS = re.compile(r"guest (\d+) \(gdb thread id \d+\): (.*); shows (.*)")
SHARED = re.compile("[0-9a-f]{8}: ")
REGISTERS, PC = 33, 32
# How many bytes one `monitor shared` and one packet of memory are asked for.
PIECE = 4096


class Failure(Exception):
    """Why the second run can't be looked at."""


def position_of(text):
    """Returns the position that `monitor where` tells, None if it tells none."""
    found = WHERE.search(text)
    if not found:
        return None
    turn, phase, thread, instructions, end, step = found.groups()
    return Position(int(turn), int(instructions or 0), int(step), int(phase), int(thread), bool(end))


def checksum(data):
    return sum(data) % 256


class Engine:
    """A run that is debugged by its own `dthreads debug`."""

    def __init__(self, command):
        try:
            # (a session of its own: what interrupts gdb doesn't reach it)
            how = {"stdin": subprocess.PIPE, "stdout": subprocess.PIPE, "stderr": subprocess.DEVNULL, "start_new_session": True}
            self.process = subprocess.Popen(command, **how)
        except OSError as why:
            raise Failure(f"{command[0]}: {why.strerror}") from None
        self.console, self.said_at_end, self.last = "", "", None
        self.ask("qSupported:swbreak+;hwbreak+")
        self.ask("QStartNoAckMode")
        self.write(b"+")

    def end(self):
        self.process.kill()
        self.process.communicate()

    def write(self, data):
        try:
            self.process.stdin.write(data)
            self.process.stdin.flush()
        except OSError:
            raise Failure("the second dthreads debug has ended") from None

    def packet(self):
        """Returns the next packet's text."""
        data = self.process.stdout.read(1)
        while data != b"$":
            if not data:
                raise Failure("the second dthreads debug has ended")
            data = self.process.stdout.read(1)
        text = b""
        while (data := self.process.stdout.read(1)) != b"#":
            if not data:
                raise Failure("the second dthreads debug has ended")
            text += data
        self.process.stdout.read(2)
        return text.decode("latin-1")

    def ask(self, text):
        """Sends a packet. Returns its answer; what comes for the console before it is kept in `console`."""
        data = text.encode()
        self.write(b"$%s#%02x" % (data, checksum(data)))
        self.console = ""
        while True:
            answer = self.packet()
            if not answer.startswith("O") or answer == "OK":
                return answer
            self.console += bytes.fromhex(answer[1:]).decode(errors="replace")

    def monitor(self, text):
        """Returns what a command of `monitor` prints, whether it comes piece by piece or as the answer itself."""
        answer = self.ask("qRcmd," + text.encode().hex())
        return self.console + (bytes.fromhex(answer).decode(errors="replace") if re.fullmatch("([0-9a-f]{2})+", answer) else "")

    def resume(self, packet):
        """Goes on, past threads that are told of. Returns the stop and all that came for the console."""
        said = ""
        while True:
            answer = self.ask(packet)
            said += self.console
            if ";create:" not in answer and not answer.startswith("T05create:"):
                self.console = said
                return answer

    def where(self):
        found = position_of(self.monitor("where"))
        if not found:
            raise Failure("the second dthreads debug doesn't tell its position")
        return found

    def go(self, turn, instructions=0):
        """Goes to a position. Returns whether there is one."""
        return self.jump(f"turn {turn} {instructions}")

    def go_to_step(self, step):
        return self.jump(f"go {step}")

    def jump(self, command):
        if "no such position" in self.monitor(command):
            return False
        self.resume("bs")
        return True

    def go_to_end(self):
        """Goes to the run's end, or to its trap. Returns what `dthreads debug` says of it."""
        if self.last is not None:
            self.go_to_step(self.last)
            return self.said_at_end
        said, stop = "", ""
        while not ("replaylog:end" in stop or "trap thread=" in said or stop.startswith(("W", "X"))):
            stop = self.resume("vCont;c")
            said += self.console
        self.said_at_end, self.last = said, self.where().step
        return said

    def go_behind(self, turn):
        """Goes to the first position behind a turn."""
        if not self.go(turn + 1):
            self.go_to_end()

    def registers(self, thread):
        """Returns the registers of a guest thread, the pc behind the others."""
        self.ask(f"Hg{thread + 1:x}")
        answer = self.ask("g")
        return [int.from_bytes(bytes.fromhex(answer[8 * at : 8 * at + 8]), "little") for at in range(REGISTERS)]

    def memory(self, thread, address, length):
        """Returns bytes as a guest thread sees them: fewer if the last ones are not mapped."""
        self.ask(f"Hg{thread + 1:x}")
        found = b""
        while len(found) < length:
            answer = self.ask(f"m{address + len(found):x},{min(PIECE, length - len(found)):x}")
            if answer.startswith("E") or not answer:
                break
            found += bytes.fromhex(answer)
        return found

    def shared(self, address, length):
        """Returns bytes of the shared memory, None if they are not mapped."""
        found = b""
        for first in range(0, length, PIECE):
            lines = self.monitor(f"shared {address + first:#x} {min(PIECE, length - first)}").splitlines()
            found += b"".join(bytes.fromhex(it.partition(": ")[2]) for it in lines if SHARED.match(it))
        return found if len(found) == length else None

    def turns(self, first, last):
        """Returns the turns of the trace with these numbers that are done here."""
        found = (LINE.fullmatch(it) for it in self.monitor(f"trace {first} {last}").splitlines())
        return [Turn(int(it[1]), int(it[2]), int(it[3]), it[4]) for it in found if it]

    def writers(self, address, length):
        """Returns the turns done here that changed some of these bytes of the shared memory, in order."""
        found = (WRITER.fullmatch(it) for it in self.monitor(f"writers {address:#x} {length}").splitlines())
        # (bytes that were not mapped are left out at the end)
        bytes_of = lambda text: bytes.fromhex(text).ljust(length, b"\0")
        return [Write(int(it[1]), int(it[2]), bytes_of(it[3]), bytes_of(it[4]), bytes_of(it[3] if it[5] is None else it[5])) for it in found if it]

    def threads(self):
        """Returns what each guest thread does, and which memory it shows."""
        found = (SHOWS.fullmatch(it) for it in self.monitor("threads").splitlines())
        return {int(it[1]): (it[2], it[3]) for it in found if it}

    def instruction(self, thread, pc):
        return int.from_bytes(self.memory(thread, pc, 4).ljust(4, b"\0"), "little")


# What an instruction does with memory: `kind` is load, store or call; `source` is the register that is stored.
Access = namedtuple("Access", "kind address length source")


def access_of(word, registers):
    """Returns what an instruction of RV32IM does with memory in these registers, None if nothing."""
    base, width = registers[word >> 15 & 31], 1 << (word >> 12 & 3)
    if word & 127 == 0x23:
        offset = (word >> 25 << 5 | word >> 7 & 31) - (0x1000 if word >> 31 else 0)
        return Access("store", (base + offset) % 2**32, width, word >> 20 & 31)
    if word & 127 == 0x03:
        offset = (word >> 20) - (0x1000 if word >> 31 else 0)
        return Access("load", (base + offset) % 2**32, width, None)
    return Access("call", 0, 0, None) if word == 0x73 else None


# The call that reads the run's input: it stores to the memory that x10 and x11 tell, as much as there is.
READ, READS_TO, READS = 12, 10, 11
CALL = 17


class Store(namedtuple("Store", "position pc address length call")):
    """A step that stores: its position, before it, and the bytes that it stores to."""

    def has(self, address):
        return self.address <= address < self.address + self.length


def store_here(engine):
    """Returns the store of the next step, None if it is none."""
    position = engine.where()
    registers = engine.registers(position.thread)
    found = access_of(engine.instruction(position.thread, registers[PC]), registers)
    if found and found.kind == "store":
        return Store(position, registers[PC], found.address, found.length, None)
    if found and found.kind == "call" and registers[CALL] == READ:
        return Store(position, registers[PC], registers[READS_TO], registers[READS], "read")
    return None


def last_store(engine, addresses):
    """Goes back to the last store to one of these bytes before this position, and returns it, None if there is none."""
    ranges = [f"Z2,{it:x},1" for it in addresses]
    while True:
        for it in ranges:
            engine.ask(it)
        stop = engine.resume("bc")
        for it in ranges:
            engine.ask(it.lower())
        if "watch:" not in stop:
            return None
        # (it is told behind the step)
        engine.go_to_step(engine.where().step - 1)
        found = store_here(engine)
        if found and any(map(found.has, addresses)):
            return found
