"""Lists of races of programs in C.

Each case of guest/tests/races/cases.c has the races that CASES names, with no quantum and with each of QUANTA the same list for 1, 2, 3, 4
and 64 workers. Each program of guest/tests/list and each sample that is right has an empty list. DTHREADS names the program that runs the
guests, or else ./dthreads.
"""
import os
import re
import subprocess
import tempfile

from dt_commands import c_samples, guest_runs, guest_tests
from dt_commands.repository import TOP
from dt_commands.texts import read_text

SOURCE = "guest/tests/races/cases.c"
WORKERS, QUANTA, SECONDS = (1, 2, 3, 4, 64), (1, 7, 1000), 120
# Each case, with its races: the object, and both accesses in their order, each with its kind and its function.
CASES = {
    "lost_update": ["counter: store one, load two", "counter: load one, store two", "counter: store one, store two"],
    "under_mutex": [],
    "reader_without_mutex": ["counter: store one, load two"],
    "neighbouring_bytes": [],
    "plain_flag": ["flag: store one, load two", "flag: store one, load two", "counter: store one, load two"],
    "atomic_flag": [],
    "relaxed_flag": ["counter: store one, load two"],
    "accessed_flag": [],
    "phases_apart": ["counter: store one, store two"],
    "barrier_ends": [],
    "freed_block": [],
    "same_value": ["counter: store one, load two"],
    "one_path_locked": ["counter: store one, store two"],
    "beside_created": ["counter: store main, store one"],
    "joined": [],
    "signalled": [],
    "posted": [],
    "read_write_lock": [],
    "own_lock": [],
    "once_made": [],
    "text_beside": [],
    "text_changed": ["texts: load end_from, store two"],
}
# The programs with findings: the samples of a race, the tests of loops on plain flags, and those of what the library answers to misuse.
RACY = {
    "mutexes": ["checked: taken-twice in main", "checked: unlock-of-anothers in tries", "recursive: unlock-of-anothers in tries",
                "recursive: unlock-of-free in main", "normal: destroy-of-held in main", "checked: taken-twice in main"],
    "rwlocks": ["lock: taken-twice in main", "lock: destroy-of-held in main", "lock: destroy-of-held in main"],
    "rwlock_holders": ["first: unlock-of-anothers in frees", "first: unlock-of-free in main", *["many: unlock-of-free in main"] * 12,
                       "no symbol: unlock-of-anothers in of_kind"],
    "unlocks": ["careful: unlock-of-anothers in main", "mutex: unlock-of-anothers in main", "mutex: end-with-lock in ends_with_it",
                "mutex: unlock-of-anothers in main"],
    "openmp_race": ["total: store main._omp_fn.0, load main._omp_fn.0", "total: store main._omp_fn.0, store main._omp_fn.0"],
    "race": ["counter: store add, load add", "counter: store add, store add"],
    "interrupts": ["inside: load main, store reads", "inside: store reads, load main"],
    "spins": ["flag: load main, store sets"],
    "sleepers": ["slept: store sleeps, load deadlines", "stop: load computes, store main", *["stop: load writes, store main"] * 2],
    "relocks": ["m: taken-twice in main", "came: store handler, load sends"],
}
LINE = re.compile(
    r"race address=[0-9a-f]{8} bytes=\d (load|store) thread=\d+ turn=\d+\+\d+ pc=[0-9a-f]{8} (load|store) thread=\d+ turn=\d+\+\d+ pc=[0-9a-f]{8}"
    r" object=(\w+)\+\d+ in=([\w.]+)\+\d+ in=([\w.]+)\+\d+")
MISUSE = re.compile(r"misuse ([\w-]+) (?:object=(\w+)\+\d+|address=[0-9a-f]{8}) thread=\d+ turn=\d+\+\d+ in=([\w.]+)\+\d+(?: held-by .*)?")


def shown(text):
    """Returns the findings of a list, as CASES and RACY write them; a line of another form as it is."""
    found = []
    for line in text.splitlines():
        race, misuse = LINE.fullmatch(line), MISUSE.fullmatch(line)
        if race:
            found.append(f"{race[3]}: {race[1]} {race[4]}, {race[2]} {race[5]}")
        else:
            found.append(f"{misuse[2] or 'no symbol'}: {misuse[1]} in {misuse[3]}" if misuse else line)
    return found


def list_of(elf, words=(), given=None):
    """Returns the list of a run, or what went wrong in its place."""
    with tempfile.TemporaryDirectory() as room, open(given or os.devnull, "rb") as it:
        races = f"{room}/races"
        command = [guest_runs.program(), "run", elf, "--check", races, *words]
        ran = subprocess.run(command, stdin=it, stdout=subprocess.DEVNULL, stderr=subprocess.PIPE, timeout=SECONDS, check=False)
        if not os.path.exists(races):
            return f"no list: status {ran.returncode}, {ran.stderr[:200].decode(errors='replace')}"
        return read_text(races)


def test_case(tally, room, name, wanted):
    """Tries a case with each number of workers and each quantum."""
    elf = f"{room}/case.elf"
    said = guest_runs.compiled(["-O2", "-g", f"-DCASE={name}", SOURCE], elf, TOP)
    if said is not None:
        tally.fail(f"{name}: doesn't build: {said}")
        return
    for quantum in (None, *QUANTA):
        of_run = ["--quantum", str(quantum)] if quantum else []
        texts = {list_of(elf, [*of_run, "--workers", str(it)]) for it in WORKERS}
        if len(texts) != 1:
            tally.fail(f"{name}, quantum {quantum}: the workers change the list")
        if quantum is None and shown(min(texts)) != wanted:
            tally.fail(f"{name}: {shown(min(texts))}, wanted {wanted}")


def test_right(tally, room, program):
    """Tries a program, whose list must be empty but for those of RACY."""
    elf = f"{room}/{program.name}.elf"
    said = guest_runs.compiled(["-O2", "-g", *program.of_compiler, program.source], elf, program.folder)
    if said is not None:
        tally.fail(f"{program.name}: doesn't build: {said}")
        return
    found = shown(list_of(elf, program.of_run, program.given))
    if found != RACY.get(program.name, []):
        tally.fail(f"{program.name}: {found}")


def programs():
    """Returns the programs of the kit's tests and the samples."""
    samples = [guest_tests.Program(it.name, f"samples/c/{it.name}.c", TOP, [], [], it.given) for it in c_samples.samples()]
    return guest_tests.programs() + samples


def arguments(parser):
    guest_runs.with_share(parser)


def test(options):
    """Runs programs in C with --check: the cases have the expected races, correct programs and samples none."""
    tasks = [(it, lambda tally, room, it=it: test_case(tally, room, it, CASES[it])) for it in CASES]
    tasks += [(it.name, lambda tally, room, it=it: test_right(tally, room, it)) for it in programs()]
    does = lambda tally, room, task: task[1](tally, room)
    return guest_runs.all_tried("programs", guest_runs.share(options.share, tasks), does, ": the expected races, and no others")
