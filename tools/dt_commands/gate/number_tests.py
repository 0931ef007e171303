"""Whole runs with a schedule's number: the program beside a second implementation of the law, `dt_commands.law_model`.

Guests are programs of crates/test_guest_runs/data, some whose phases are many or long, and random ones. Each runs without a number and with
the numbers from 1 on. Workers, quantum, bound, the phases that the number shuffles, and choices go by the number. Status, output, message,
trace and digest must be those of the second implementation; for some numbers also what the debugger says of turns, and the replay of a
written schedule. DTHREADS names the program, or else ./dthreads.
"""
import random
import struct
from collections import namedtuple

from dt_commands import fixed_guests, guest_runs, random_guests, written_guests
from dt_commands.gdb_packets import Debugged
from dt_commands.law_model import memory, runs, shown
from dt_commands.random_guests import A0, A1, T0, ZERO, imm, load_number
from dt_commands.row_texts import Differences
from dt_commands.run_rows import performed
from dt_commands.texts import contents, write_file

# A guest: its name, its file, its input, and the bound of its runs; quanta are multiples of its last number.
Guest = namedtuple("Guest", "name elf given bound pace", defaults=(b"", 2000, 1))
# Programs of the data that begin with a call and expect zeros in x10 and x11; and some that show what they find there.
CLEARED = ["race", "three-writers", "spin", "release-race", "signal", "broadcast", "barrier-values", "two-joiners", "endless"]
SHOWING = ["race", "two-pages"]
SEEDS = [2, 3, 5]
GIVEN = b"some input to be read by several threads"
# Where the instructions are that clear both registers: the last page of images.
CLEARING = 0x1FFFF000
WORKERS = (1, 2, 3, 4, 64)
LARGE = [2**31, 2**32 - 1]
# One of so many numbers is tried in the gate; and of each so many numbers the debugger and a replay are tried with this one.
BRIEF, ASIDE, WITH_ASIDE = 11, 20, 8
# A written schedule has at most so many instructions.
MOST_STEPS = 20_000
REGISTERS = 33


def arguments(parser):
    parser.add_argument("names", nargs="*", metavar="GUEST", help="the guests whose names begin so (default: all)")
    parser.add_argument("--numbers", type=int, default=200, metavar="N", help="the greatest number; with 0 runs have none (default: 200)")
    parser.add_argument("--brief", action="store_true", help="the gate's part alone: for each guest one number of eleven")
    guest_runs.with_share(parser)


def cleared(elf):
    """Returns a file with another start, which puts 0 into x10 and x11 and goes on at the file's entry."""
    count = struct.unpack_from("<H", elf, memory.ROWS + 2)[0]
    words = [imm(A0, ZERO, 0, 0), imm(A1, ZERO, 0, 0), *load_number(T0, memory.entry_of(elf)), imm(ZERO, T0, 0, 0, 0x67)]
    code, rows = b"".join(struct.pack("<I", it) for it in words), elf[52 : 52 + 32 * count]
    moved = [list(struct.unpack_from("<8I", rows, 32 * it)) for it in range(count)]
    moved.append([memory.SEGMENT, len(elf), CLEARING, 0, len(code), len(code), 5, 0])
    for row in moved:
        row[1] += 32
    head = bytearray(elf[:52])
    struct.pack_into("<I", head, memory.ENTRY, CLEARING)
    struct.pack_into("<H", head, memory.ROWS + 2, count + 1)
    return bytes(head) + b"".join(struct.pack("<8I", *it) for it in moved) + elf[52 + 32 * count :] + code


def guests():
    """Yields the guests."""
    for name in CLEARED:
        yield Guest(name, cleared(written_guests.elf(name)))
    for name in SHOWING:
        yield Guest(f"{name}-as-it-is", written_guests.elf(name))
    yield Guest("counter", cleared(written_guests.elf("counter")), bound=300)
    yield Guest("meeting", cleared(fixed_guests.meeting(4)), bound=320)
    yield Guest("racing", cleared(fixed_guests.racing()), bound=10**5, pace=500)
    for seed in SEEDS:
        yield Guest(f"seed-{seed}", cleared(random_guests.guest(random.Random(seed))), GIVEN, 1000)


def phases_of(number):
    """Returns the first and the last phase that a number is to shuffle, and the words for both; one number of four has some phases."""
    if number % 4 != 3:
        return 1, None, ""
    if number % 16 == 3:
        return 1, number % 7, f":{number % 7}"
    first = 1 + number % 5
    return first, first + number % 11, f":{first}-{first + number % 11}"


def choices_of(number):
    """Returns how many choices the program is to make by a number, and the word for it; one number of three has some."""
    return (0, "") if number % 3 else (10 * (number % 7), f"/{10 * (number % 7)}")


def setup_of(guest, number):
    """Returns the setup of a guest's run with a number, and the words of the command line for it."""
    bound = 4 + number % 40 if number % 7 == 6 else guest.bound
    quantum = guest.pace * (1 + number % 8) if number % 6 == 4 else None
    (first, last, phases), (choices, limit) = phases_of(number), choices_of(number)
    words = ["--bound", str(bound), *(["--quantum", str(quantum)] if quantum else [])]
    words += ["--shuffle", f"{number}{phases}{limit}"] if number else []
    return runs.Setup(guest.elf, guest.given, bound, quantum, number, first, last, choices), words


def workers_of(number):
    return WORKERS[number % len(WORKERS)]


def compare_run(room, guest, number, run, words, found):
    """Compares what the program gives of a run with what it must give."""
    texts = ["--trace", "trace", "--digest", "digest"]
    ran = performed(["run", "a.elf", "--workers", str(workers_of(number)), *texts, *words], guest.given, room)
    found.expect((ran.returncode, ran.stderr.decode()), (run.outcome.status, run.outcome.message), "status and message")
    found.expect(contents(f"{room}/trace") or b"", shown.trace(run), "trace")
    found.expect(ran.stdout, run.output, "output")
    found.expect(contents(f"{room}/digest") or b"", shown.digest(run), "digest")


def compare_replay(room, guest, number, run, words, found):
    """Compares what the replay of a written schedule prints with the run's trace."""
    workers = workers_of(number)
    write_file(f"{room}/schedule", shown.schedule(run, workers))
    ran = performed(["replay", "a.elf", "schedule", "--workers", str(workers), *words], guest.given, room)
    found.expect((ran.returncode, ran.stderr.decode()), (run.outcome.status, run.outcome.message), "status and message of the replay")
    found.expect(ran.stdout, shown.trace(run), "what the replay prints")


def told_of(debugged):
    """Returns turn, phase and thread of the position, as the debugger says them."""
    return debugged.monitor("where").partition(" (")[0]


def position_of(run, turn):
    return f"turn {turn} phase {run.turns[turn - 1].phase} thread {run.turns[turn - 1].thread}"


def numbered_lines(run, count):
    """Returns the first lines of a trace, as the debugger shows them."""
    lines = shown.trace(run).decode().splitlines()[:count]
    return "".join(f"{number}: {line}\n" for number, line in enumerate(lines, 1))


def compare_beginning(debugged, run, turn, found):
    """Compares what the debugger says at the beginning of a turn: where it is, the trace so far, and the thread's registers and memory."""
    at, what = run.turns[turn - 1], f"at turn {turn} in the debugger"
    found.expect(told_of(debugged), position_of(run, turn), f"position {what}")
    found.expect(debugged.monitor("trace"), numbered_lines(run, turn - 1), f"trace {what}")
    if at.pages is None:
        return
    words = [*at.registers, at.pc]
    found.expect(debugged.ask("g")[: 8 * REGISTERS], struct.pack(f"<{REGISTERS}I", *words).hex(), f"registers {what}")
    data = at.pages.get(random_guests.DATA // memory.PAGE, memory.NOWHERE)[1][:64].hex() or "E01"
    found.expect(debugged.ask(f"m{random_guests.DATA:x},40"), data, f"memory {what}")


def compare_debugger(room, guest, run, words, turn, found):
    """Compares what the debugger says at the beginning of a turn, at the run's end, and once it is back at the first turn. A trap is a stop
    before its turn is done."""
    write_file(f"{room}/input", guest.given)
    done = len(run.turns) - run.outcome.text.startswith("trap")
    with Debugged(f"{room}/a.elf", "--input", f"{room}/input", "--turn", str(turn), *words) as debugged:
        compare_beginning(debugged, run, turn, found)
        debugged.go("vCont;c")
        found.expect(told_of(debugged), position_of(run, len(run.turns)), "position at the end in the debugger")
        found.expect(debugged.monitor("trace"), numbered_lines(run, done), "trace at the end in the debugger")
        debugged.go("bc")
        compare_beginning(debugged, run, 1, found)


def test_run(tally, room, row):
    """Tries a guest with a number, and tells what isn't as it must be."""
    guest, number = row
    (setup, words), found = setup_of(guest, number), Differences()
    run = runs.Run(setup)
    write_file(f"{room}/a.elf", guest.elf)
    compare_run(room, guest, number, run, words, found)
    if number % ASIDE == WITH_ASIDE:
        compare_debugger(room, guest, run, words, 1 + number % len(run.turns), found)
        if sum(it.steps for it in run.turns) <= MOST_STEPS:
            compare_replay(room, guest, number, run, words, found)
    for it in found.texts:
        tally.fail(f"{guest.name} {' '.join(words)} --workers {workers_of(number)}: {it}")


def rows(options):
    """Returns each guest with the numbers that it is tried with."""
    chosen = [it for it in guests() if not options.names or it.name.startswith(tuple(options.names))]
    numbers = [*range(options.numbers + 1), *(LARGE if options.numbers else [])]
    every = [(guest, number) for at, guest in enumerate(chosen) for number in (numbers[at % BRIEF :: BRIEF] if options.brief else numbers)]
    return guest_runs.share(options.share, every)


def test(options):
    """Runs guests with many numbers, and compares each run with that of a second implementation of the law."""
    return guest_runs.all_tried("runs", rows(options), test_run, ", each as the law says", lambda it: f"{it[0].name} {it[1]}")
