"""Rows of whole runs: what runs of guest programs, single calls and replays of written schedules give by their command lines.

The programs, their runs, the calls and the schedules are those of crates/test_guest_runs/data, whose crate makes the same runs by calls of
the library. Programs and schedules that proved tests name must be those of the data. The races of runs are those that
guest/tests/rows/races/wanted.races has, of the programs in that folder.
"""
import os
import re
import subprocess
import tempfile

from dt_commands import guest_runs, written_guests
from dt_commands.repository import TOP
from dt_commands.row_texts import Differences, bytes_of, listed, split, text_at
from dt_commands.texts import contents, write_file

DATA = written_guests.DATA
RACES = f"{TOP}/guest/tests/rows/races"
SCHEDULES = ["race.schedules", "small.schedules", "refused.schedules"]
WORKERS, WORKERS_OF_A_CALL, WORKERS_PRINTING = (1, 2, 3, 4, 64), (4,), 4
TEXTS = ("trace", "report", "digest")
# How many bytes an output has that isn't printed along with texts once more.
LARGE = 1_000_000
SECONDS = 300

# A line before the runs of a program.
OF_A_PROGRAM = re.compile(r"|#.*|sample|listing|  .+|zeros [0-9a-f]{8} \d+")


def rounds(words):
    """Returns the lines of a trace whose rounds differ in numbers alone, by the words that stand for them."""
    name, ran = split(words)
    if name == "creates":
        return [f"1 0 create 00010040 {it - 1:08x} 00000000 -> 0 {it:08x} changed=0 ran=4" for it in range(2, 256)]
    if name == "creates-and-ends":
        return [line for it in range(2, 256) for line in (
            f"{it} 0 create 00010038 {it - 1:08x} 00000000 -> 0 {it:08x} changed=0 ran=5",
            f"{it} {it - 1} thread_exit {it - 2:08x} {it - 1:08x} 00000000 -> end changed=0 ran=2")]
    if name == "ends":
        return [f"2 {it} thread_exit {it - 1:08x} {it:08x} 00000000 -> end changed=0 ran=2" for it in range(1, 256)]
    if name == "writes":
        return [f"{it} 0 write 00020000 00010000 00000000 -> 0 00010000 changed=0 ran={ran}" for it in range(1, 257)]
    if name == "asks":
        tops = [0x20000000 + it * 0x400000 for it in range(16)]
        return [f"{it + 1} 0 memory 00000400 {tops[it - 1]:08x} 00000000 -> 0 {tops[it]:08x} changed=0 ran={ran}" for it in range(1, 16)]
    raise SystemExit(f"no rounds: {words}")


class Run:
    """A run of a program: its name, its file, how it is made, and what it must give."""

    def __init__(self, name, file):
        self.name, self.file, self.given, self.limits, self.ending, self.status = name, file, b"", [], "", 0
        self.output, self.texts, self.is_sample = b"", {it: [] for it in TEXTS}, False

    def take(self, line):
        """Takes a field, and returns which text its block is of, if it has one."""
        name, rest = split(line)
        if name in TEXTS:
            return name
        if name in ("bound", "quantum"):
            self.limits += [f"--{name}", str(int(rest))]
        elif name == "input":
            self.given = bytes.fromhex(rest)
        elif name == "output":
            word, count = split(rest)
            self.output = bytes(int(count)) if word == "zeros" else bytes.fromhex(rest)
        elif name == "status":
            self.status = int(rest) % 256
        elif name == "ends":
            self.ending = rest
        elif name == "sample":
            self.is_sample = True
        elif name not in ("long", "changed", "counted", "memory"):
            raise SystemExit(f"no field of a run: {line}")
        return None

    def text(self, name):
        return "".join(f"{it}\n" for it in self.texts[name]).encode()

    def message(self):
        """Returns what standard error has."""
        return f"{self.ending}\n".encode() if self.ending.startswith("trap ") or self.ending == "deadlock" else b""


def runs_of(text, file, texts_at):
    """Returns the runs of a program's text; those of a sample have the trace and the report that `texts_at(kind)` gives."""
    runs, block = [], None
    for line in text.splitlines():
        if line.startswith("run "):
            runs.append(Run(line[len("run ") :], file))
        elif runs and line.startswith("  "):
            runs[-1].texts[block] += rounds(line[4:]) if line.startswith("  * ") else [line[2:]]
        elif runs and line and not line.startswith("#"):
            block = runs[-1].take(line)
        elif not runs and not OF_A_PROGRAM.fullmatch(line):
            raise SystemExit(f"no line of a program: {line}")
    for run in (it for it in runs if it.is_sample):
        run.texts.update({kind: texts_at(kind).splitlines() for kind in ("trace", "report")})
    return runs


def runs(name):
    """Returns the runs of a program."""
    return runs_of(written_guests.text_of(name), written_guests.elf(name), lambda kind: text_at(f"{DATA}/{name}.{kind}"))


def loaded(register, word):
    """Returns LUI and ADDI that put a word into a register."""
    return [(word + 0x800) % 2**32 // 4096 * 4096 | register << 7 | 0x37, word % 4096 << 20 | register << 15 | register << 7 | 0x13]


def call_of(line):
    """Returns the run of a single call: a program loads x10, x11 and the call's number, makes the call and exits with the code."""
    number, name, first, second, _, code, *value = line.split()
    words = [it for at, word in ((10, int(first, 16)), (11, int(second, 16)), (17, int(number))) for it in loaded(at, word)]
    run = Run(f"call {name} {first} {second}", written_guests.file_of([*words, 0x73, 0x00100893, 0x73]))
    code = int(code, 16)
    run.status, run.ending = code % 256, f"exit {code}"
    run.output = bytes(int(value[0], 16)) if value and name == "write" else b""
    run.texts["trace"] = [
        f"1 0 {name} {first} {second} 00000000 -> {' '.join([str(code), *value])} changed=0 ran=7",
        f"2 0 exit {code:08x} {value[0] if value else second} 00000000 -> end changed=0 ran=2",
    ]
    return run


def performed(words, given, room):
    """Performs a command line in a folder, and returns what it gave."""
    return subprocess.run([guest_runs.program(), *words], input=given, stdout=subprocess.PIPE, stderr=subprocess.PIPE, cwd=room, timeout=SECONDS)


def compare_written(run, workers, room, found):
    """Compares what a run gives when its texts are written to files, and that no other file is there."""
    kinds = [it for it in TEXTS if it != "digest" or run.texts[it]]
    write_file(f"{room}/a.elf", run.file)
    for kind in kinds:
        write_file(f"{room}/{kind}", b"x" * 1000)
    words = ["run", "a.elf", *(it for kind in kinds for it in (f"--{kind}", kind)), "--workers", str(workers), *run.limits]
    ran, how = performed(words, run.given, room), f"with {workers} workers"
    found.expect(ran.returncode, run.status, f"status {how}")
    found.expect(ran.stderr, run.message(), f"message {how}")
    found.expect(ran.stdout == run.output, True, f"output {how}")
    for kind in kinds:
        found.expect(contents(f"{room}/{kind}"), run.text(kind), f"{kind} {how}")
    found.expect(sorted(os.listdir(room)), sorted(["a.elf", *kinds]), f"files {how}")


def compare_printed(run, room, found):
    """Compares what a run gives when its texts are printed: they come behind the guest's output, the trace first."""
    words = ["run", "a.elf", "--report", "-", "--trace", "-", "--workers", str(WORKERS_PRINTING), *run.limits]
    ran, before = performed(words, run.given, room), sorted(os.listdir(room))
    found.expect(ran.returncode, run.status, "status if texts are printed")
    found.expect(ran.stderr, run.message(), "message if texts are printed")
    found.expect(ran.stdout, run.output + run.text("trace") + run.text("report"), "texts that are printed")
    found.expect(sorted(os.listdir(room)), before, "files if texts are printed")


def compare_run(run, workers=WORKERS):
    """Compares what a run gives with each number of workers, and if its texts are printed, unless its output is large."""
    found = Differences()
    with tempfile.TemporaryDirectory(prefix="row-") as room:
        for count in workers:
            compare_written(run, count, room, found)
        if len(run.output) <= LARGE:
            compare_printed(run, room, found)
    return found.texts


def listing_of(name):
    """Returns the listing of a program: its own, or the sample's beside it."""
    found = re.search(r"^listing\n((?:  .*\n)+)", written_guests.head_of(name), re.M)
    return "".join(f"{it[2:]}\n" for it in found[1].splitlines()) if found else text_at(f"{DATA}/{name}.listing")


def sources_in(folder):
    """Returns the sources in a folder of data_guest_programs as one text, and in it the constants that are texts."""
    folder = f"{TOP}/crates/data_guest_programs/{folder}"
    text = "".join(text_at(f"{folder}/{it}") for it in sorted(os.listdir(folder)) if it.endswith(".rt"))
    return text, dict(re.findall(r'const (\w+): &str = ("\\\n.*?");', text, re.S))


def text_in(parts, constants):
    """Returns the text of a list of sources: literals, and names of constants."""
    found = [constants.get(it, it) for it in re.findall(r'"[^"]*"|\w+', parts)]
    return "".join(re.sub(r'^"(?:\\\n)?|"$', "", it).replace("\\n", "\n") for it in found)


def kept_programs():
    """Returns the programs that proved tests name, by their names: of each its listing and its segments of zeros; and traces of runs."""
    text, constants = sources_in("src")
    page = re.search(r"const PAGE: .*? = (\[.*?\]);", text)[1]
    found = re.findall(r'name: "([^"]+)",\s+listing: &\[(.*?)\],\s+zeros: &(PAGE|\[.*?\]),\n', text, re.S)
    places = {"DATA": 0x20000}
    programs = {}
    for name, listing, zeros in found:
        segments = re.findall(r"\((\w+), (\w+)\)", page if zeros == "PAGE" else zeros)
        programs[name] = text_in(listing, constants), [(places.get(at) or int(at, 0), int(size, 0)) for at, size in segments]
    return programs, {name: text_in(it, constants) for name, it in re.findall(r'\("([\w-]+)", (\w+_TRACE)\)', text)}


def compare_program(name, kept):
    """Compares a program's listing with what the program prints of its file, and both with what proved tests have by its name."""
    found, listing, (programs, traces) = Differences(), listing_of(name), kept
    with tempfile.TemporaryDirectory(prefix="row-") as room:
        write_file(f"{room}/a.elf", written_guests.elf(name))
        ran = performed(["disasm", "a.elf"], b"", room)
    found.expect((ran.returncode, ran.stderr), (0, b""), "status and message of disasm")
    found.expect(ran.stdout, listing.encode(), "listing by disasm")
    if written_guests.is_sample(name):
        found.expect(contents(f"{DATA}/{name}.elf") == written_guests.elf(name), True, "file of the sample")
    if name in programs:
        found.expect(programs[name][0].encode(), listing.encode(), "listing of data_guest_programs")
        found.expect(programs[name][1], written_guests.zeros_of(name), "segments of data_guest_programs")
    if name in traces:
        found.expect(traces[name].encode(), runs(name)[0].text("trace"), "trace of data_guest_programs")
    return found.texts


class Replay:
    """A written schedule, and what its replay must give."""

    def __init__(self, name):
        self.name, self.run, self.workers, self.is_sample, self.text, self.end = name, "", 1, False, b"", None

    def take(self, line):
        name, rest = split(line)
        if line.startswith("  "):
            self.text += f"{line[2:]}\n".encode()
        elif name == "of":
            self.run = rest
        elif name == "workers":
            self.workers = int(rest)
        elif name == "sample":
            self.is_sample = True
        elif name == "text":
            self.text += bytes_of(rest)
        elif name == "ends":
            turns, status, line = (rest.split(" ", 2) + [""])[:3]
            self.end = int(turns), int(status), f"{line}\n".encode() if line else b""
        elif name != "events":
            raise SystemExit(f"no field of a schedule: {line}")


def replays():
    """Returns the written schedules, in the order of their files."""
    rows = []
    for line in (line for file in SCHEDULES for line in text_at(f"{DATA}/{file}").splitlines()):
        if line.startswith("schedule "):
            rows.append(Replay(line[len("schedule ") :]))
        elif line and not line.startswith("#"):
            rows[-1].take(line)
    for row in (it for it in rows if it.is_sample):
        row.text = contents(f"{DATA}/{row.name}.schedule")
    return rows


def kept_schedules():
    """Returns the schedules that proved tests name, by their names."""
    text, constants = sources_in("src/schedules")
    found = re.findall(r'name: "([^"]+)",\s+program: [\w:]+,\s+text: &\[(.*?)\],\n', text, re.S)
    return {name: text_in(parts, constants).encode() for name, parts in found}


def compare_replay(row, run, kept):
    """Compares what the replay of a schedule gives with its end, or with the run that it is for."""
    found = Differences()
    if row.name in kept:
        found.expect(kept[row.name], row.text, "text of data_guest_programs")
    turns, status, line = row.end or (None, run.status, run.message())
    with tempfile.TemporaryDirectory(prefix="row-") as room:
        for name, data in (("a.elf", run.file), ("schedule", row.text)):
            write_file(f"{room}/{name}", data)
        ran = performed(["replay", "a.elf", "schedule", "--workers", str(row.workers), *run.limits], run.given, room)
    found.expect(ran.returncode, status, "status")
    found.expect(ran.stdout, "".join(f"{it}\n" for it in run.texts["trace"][:turns]).encode(), "trace")
    found.expect(ran.stderr, line, "line")
    return found.texts


def wanted_races():
    """Returns the wanted races of each run, by its name."""
    parts = re.split(r"^run (.*)\n", text_at(f"{RACES}/wanted.races"), flags=re.M)
    return {name: "".join(f"{it[2:]}\n" for it in lines.splitlines()).encode() for name, lines in zip(parts[1::2], parts[2::2])}


def compare_races(run, wanted):
    """Compares the races of a run with the wanted ones."""
    found = Differences()
    with tempfile.TemporaryDirectory(prefix="row-") as room:
        write_file(f"{room}/a.elf", run.file)
        ran = performed(["run", "a.elf", "--check", "races", *run.limits], run.given, room)
        found.expect(contents(f"{room}/races"), wanted, "races")
    found.expect(ran.returncode < 122 or not ran.stderr, True, "a run that ended")
    return found.texts


def tasks_of_races():
    """Yields each run of the programs with races, with a call that returns what isn't as wanted."""
    wanted = wanted_races()
    for name in listed(RACES):
        text = text_at(f"{RACES}/{name}.guest")
        file = written_guests.elf_of(name, written_guests.words_of(text), written_guests.zeros_in(text))
        for run in runs_of(text, file, None):
            yield f"races of {run.name}", lambda run=run: compare_races(run, wanted[run.name])


def tasks():
    """Yields each row's name with a call that returns what of it isn't as wanted."""
    every, kept, schedules = {}, kept_programs(), kept_schedules()
    for name in listed(DATA):
        yield f"listing of {name}", lambda name=name: compare_program(name, kept)
        for run in runs(name):
            every[run.name] = run
            yield run.name, lambda run=run: compare_run(run)
    for line in text_at(f"{DATA}/single.calls").splitlines():
        if not line.startswith("#"):
            run = call_of(line)
            yield run.name, lambda run=run: compare_run(run, WORKERS_OF_A_CALL)
    for row in replays():
        yield f"replay of {row.name}", lambda row=row: compare_replay(row, every[row.run], schedules)
    yield from tasks_of_races()
