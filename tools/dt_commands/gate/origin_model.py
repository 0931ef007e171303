"""Who wrote each byte, by a plain model that steps through whole runs, beside what the command origin of gdb is made of.

The model keeps, for the shared memory, for that of a phase's start and for the open turn, the last store to each byte. Programs are samples
in C and guest/tests/gdb, with quanta and numbers; a seed picks positions, threads and bytes. It needs the packages that guest/packages lists.
DTHREADS names the program that debugs, or else ./dthreads.
"""
import random
import sys

from dt_commands import guest_runs
from dt_commands.repository import TOP

# The programs, each with the options of its runs.
RUNS = [
    ("samples/c/race.c", ["--quantum", "200"]), ("guest/tests/gdb/rounds.c", []), ("guest/tests/gdb/rounds.c", ["--quantum", "50", "--shuffle", "3"]),
    ("guest/tests/gdb/tls.c", ["--quantum", "37"]), ("guest/tests/gdb/mutex.c", ["--shuffle", "2"]),
]
# At how many positions views are compared, how many steps a run has at most, and how many bytes a value has.
POSITIONS, STEPS, LENGTHS = 40, 12_000, (1, 4, 8)
# Every position so near a turn's beginning is one that may be picked, and so many of the others.
NEAR, SOME = 1, 0.02


def modules():
    """Returns the modules of the kit's debugger that need no gdb."""
    sys.path.insert(0, f"{guest_runs.KIT}/debugger")
    import engine
    import origins
    return engine, origins


class Model:
    """The last store to each byte: its value, and its turn, instruction and pc."""

    def __init__(self, first):
        self.first, self.shared, self.phase_start, self.base, self.own = first, {}, {}, {}, {}

    def value(self, memory, address):
        """Returns a byte; one that nobody stored to is as the program began."""
        if address in memory:
            return memory[address][0]
        return (self.first.shared(address, 1) or b"\0")[0]

    def store(self, access, value, tag):
        for at in range(access.length):
            self.own[(access.address + at) % 2**32] = (value >> 8 * at & 255, tag)

    def end_turn(self, before, position):
        """Merges what the turn changed, and takes the base of the next one."""
        for address, (value, tag) in self.own.items():
            if value != self.value(self.base, address):
                self.shared[address] = (value, tag)
        self.own = {}
        if position.phase != before.phase:
            self.phase_start = dict(self.shared)
        keeps = position.phase == before.phase and position.thread == before.thread
        self.base = dict(self.shared if keeps else self.phase_start)

    def views(self):
        return {"its own memory": {**self.base, **self.own}, "the memory of the phase's start": dict(self.phase_start), "the shared memory": dict(self.shared)}


def walked(engine, run, first, dice):
    """Steps through a run. Returns positions with what each thread shows there and the views, and all bytes that were stored to."""
    model, found, addresses, position = Model(first), [], set(), run.where()
    while not position.is_end and position.step < STEPS:
        if position.instructions <= NEAR or dice.random() < SOME:
            found.append((position, {thread: shows for thread, (_, shows) in run.threads().items()}, model.views()))
        registers = run.registers(position.thread)
        access = engine.access_of(run.instruction(position.thread, registers[engine.PC]), registers)
        if access and access.kind == "store":
            model.store(access, registers[access.source], (position.turn, position.instructions, registers[engine.PC]))
            addresses.update(model.own)
        before = position
        run.resume(f"vCont;s:{position.thread + 1:x};c")
        position = run.where()
        # (a step of a thread may let others go on)
        if position.step != before.step + 1:
            run.go_to_step(before.step + 1)
            position = run.where()
        if position.step != before.step + 1:
            break
        if position.turn != before.turn or position.is_end:
            model.end_turn(before, position)
    return found, sorted(addresses)


def compare(tally, name, command, dice):
    """Compares the origins of some bytes with the model's."""
    engine, origins = modules()
    run, first = engine.Engine(command), engine.Engine(command)
    found, addresses = walked(engine, run, first, dice)
    for position, shown, views in dice.sample(found, min(POSITIONS, len(found))):
        for thread, shows in shown.items():
            address, length = dice.choice(addresses), dice.choice(LENGTHS)
            told = origins.Origins(first, position, thread, address, length)
            for at in range(length):
                store, wanted = told.stores.get(at), views[shows].get(address + at)
                got = (*store.position[:2], store.pc) if store else None
                if got != (wanted[1] if wanted else None):
                    tally.fail(f"{name}: byte {address + at:#010x} at {position} for thread {thread}: {got}, and not {wanted}")
    for it in (run, first):
        it.end()


def test_run(tally, room, row):
    source, options = row
    program = guest_runs.built(["-Og", "-g", f"{TOP}/{source}"], f"{room}/program.elf")
    compare(tally, f"{source} {' '.join(options)}", [guest_runs.program(), "debug", program, *options], random.Random(source))


def test(options):
    """Compares who wrote bytes, as the command origin of gdb tells it, with a plain model that steps through whole runs."""
    return guest_runs.all_tried("runs", RUNS, test_run, ", each origin as the model has it", lambda it: " ".join([it[0], *it[1]]))
