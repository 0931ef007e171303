"""Whole runs: phases and turns by GUEST.md, with a schedule's number by LAW.md."""
from collections import namedtuple

from dt_commands import shuffles
from dt_commands.law_model.calls import ENDED, READY, WOKEN, State, carry_out, end_wait
from dt_commands.law_model.instructions import BOUND, Trap, execute
from dt_commands.law_model.memory import Copy, entry_of, pages_of

# A run is fixed by its file and input, bound and quantum, and the number of its schedule: the first and the last phase that the number
# shuffles, the last being None if all later ones are, and how many choices the program makes by it, 0 for all.
Setup = namedtuple("Setup", "elf given bound quantum number first last choices", defaults=(b"", 10**9, None, 0, 1, None, 0))
# A turn: what the trace says of it, the addresses of the bytes that differ, how many instructions it had; the events that its segment takes in a
# written schedule, and whether its thread is the keeper; the thread's pc and registers before it, and the pages of its copy.
Turn = namedtuple("Turn", "phase thread text changed ran steps is_keeper pc registers pages")
Outcome = namedtuple("Outcome", "text status message")
TRAPPED, DEADLOCKED = 120, 121
CALL, QUANTUM = "call", "quantum"


class Endless(Exception):
    """A run has more turns than were to be tried."""


class Run:
    """A run: its turns, its output, and its outcome."""

    def __init__(self, setup, most_turns=10**6):
        self.setup, self.most_turns, self.turns, self.outcome = setup, most_turns, [], None
        self.state = State(pages_of(setup.elf), entry_of(setup.elf), setup.number, setup.choices if setup.number else 0, setup.given)
        phase = 0
        while not self.outcome:
            phase += 1
            self.go_through(phase)

    @property
    def output(self):
        return bytes(self.state.output)

    def go_through(self, phase):
        """A phase: each thread of its list has its turn, or the run ends if no thread is ready or woken."""
        serial = [it for it in self.state.threads if it.status in (READY, WOKEN)]
        if not serial:
            self.outcome = self.quiet()
            return
        pages = self.state.memory.now()
        for thread in self.list_of(phase, serial):
            self.take(phase, thread, pages, self.length_of(phase, thread, serial))
            if self.outcome:
                return

    def is_shuffled(self, phase):
        first, last = self.setup.first, self.setup.last
        return self.setup.number > 0 and first <= phase and (last is None or phase <= last)

    def list_of(self, phase, serial):
        """The list is fixed at the phase's start: the ready and the woken threads, ascending, or what a number draws of them. One alone is
        the list."""
        if not self.is_shuffled(phase) or len(serial) == 1:
            return serial
        return [self.state.threads[it] for it in shuffles.phase_list(self.setup.number, phase, [it.number for it in serial])]

    def length_of(self, phase, thread, serial):
        """Returns after how many instructions a fresh segment ends: the quantum, or a length that a number draws if that is less."""
        drawn = self.is_shuffled(phase) and len(serial) > 1 and shuffles.length(self.setup.number, phase, thread.number)
        return min(it for it in (drawn or None, self.setup.quantum) if it) if drawn or self.setup.quantum else None

    def take(self, phase, thread, pages, length):
        """The turns of a thread of the list: one of a copy of the phase's memory, or the end of its wait, and more while it keeps the token,
        each of a copy of present memory and without a quantum."""
        if thread.status == WOKEN:
            self.wake(phase, thread)
        else:
            self.turn(phase, thread, pages, length)
        while not self.outcome and thread.status == READY and self.state.held_by(thread):
            self.turn(phase, thread, self.state.memory.now(), None, True)

    def wake(self, phase, thread):
        self.add(Turn(phase, thread.number, f"wake {end_wait(self.state, thread)}", (), 0, 0, False, *at(thread), None))

    def turn(self, phase, thread, pages, length, is_keeper=False):
        """Commit, then call: the bytes that differ from the copy are written to shared memory, and then the call is carried out."""
        before, copy = at(thread), Copy(pages)
        stop, ran = self.segment(thread, copy, length)
        changes = copy.changes()
        self.state.memory.write(changes)
        text = self.after(thread, stop)
        self.add(Turn(phase, thread.number, text, tuple(changes), ran, ran + (stop != CALL), is_keeper, *before, pages))

    def segment(self, thread, copy, length):
        """Runs a thread up to its next ecall or trap, or the end of its quantum. Returns the stop, and how many instructions it executed.
        Before each the tests come in the order bound, quantum, trap, ecall."""
        before = thread.executed
        while True:
            ran = thread.executed - before
            if thread.executed == self.setup.bound:
                return Trap(BOUND, 0), ran
            if ran == length:
                return QUANTUM, ran
            try:
                is_call = execute(thread.hart, copy)
            except Trap as trap:
                return trap, ran
            thread.executed += 1
            if is_call:
                return CALL, ran + 1

    def after(self, thread, stop):
        """What follows the commit. Returns what the trace says of it. An exit or a trap ends the run."""
        pc = thread.hart.pc
        if stop == QUANTUM:
            return f"quantum {pc:08x}"
        if stop != CALL:
            told = f"trap thread={thread.number} pc={pc:08x} cause={stop.cause} value={stop.value:08x}"
            self.outcome = Outcome(told, TRAPPED, f"{told}\n")
            return f"trap {stop.cause} {pc:08x} {stop.value:08x}"
        text = carry_out(self.state, thread)
        if self.state.status is not None:
            self.outcome = Outcome(f"exit {self.state.status}", self.state.status % 256, "")
        return text

    def quiet(self):
        """The outcome if no thread is ready or woken: thread 0's value if all are done, else a deadlock."""
        if any(it.status != ENDED for it in self.state.threads):
            return Outcome("deadlock", DEADLOCKED, "deadlock\n")
        value = self.state.threads[0].value
        return Outcome(f"finished {value}", value % 256, "")

    def add(self, turn):
        if len(self.turns) == self.most_turns:
            raise Endless
        self.turns.append(turn)


def at(thread):
    """Returns where a thread is: its pc and its registers."""
    return thread.hart.pc, tuple(thread.hart.x)
