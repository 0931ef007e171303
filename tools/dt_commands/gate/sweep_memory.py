"""Refuses the allocations of three programs.

`alloc_failures` must print the same text whichever of its allocations is refused. It has calls that allocate nothing, between two
allocations. If all are refused from the first of these two on, it must report both as refused, and print of the calls what it prints
otherwise. `dthreads` runs, lists and records small guests, replays schedules, and debugs. Each answer must be the true one or out of memory
(125); then standard output has a prefix of the true output, and no file was written after the first that is missing. `host_threads failures`
runs phases of these guests: each of its lines must be the true one or say out of memory, and its draws must allocate nothing.

A sweep counts only if its refusals reached the program: at least one answer is out of memory, and of the requests of an undisturbed run
all were refused in turn but for SPREAD, if it has several host threads, and nine tenths of those of the longest run. A run that doesn't
end within SECONDS hangs.

`--gate` sweeps the runs of two guests by several workers alone, as .ci/run does: their phases are shared out, since jobs are long, and of
one of them the ready threads have gaps in their numbers. And it sweeps a run that is refused, since two of its outputs are one file under
two names.

It needs a C compiler. DTHREADS names a built program to run the guests with, or else it is built.
"""
import os
import subprocess
import sys
import tempfile

from dt_commands import fixed_guests
from dt_commands.gdb_packets import framed
from dt_commands.progress import Progress
from dt_commands.repository import TOP
from dt_commands.texts import contents, write_file

OUT_OF_MEMORY = (125, b"out of memory\n")
# How much of a wrong answer is shown.
SHOWN = 2000
# By how many requests two runs of several host threads can differ.
SPREAD = 20
# For how many seconds a run may go on, and one of the gate's, which take milliseconds.
SECONDS, GATE_SECONDS = 600, 60

# The guests with their input and what else their runs are given.
GUESTS = [
    ("quotients", b"", []), ("race", b"", []), ("signal", b"", []), ("counter", b"", ["--bound", "60"]), ("letter", b"x", []),
    ("echo", b"ab", []), ("release-race", b"", []),
]
RECORDS = ["trace", "timeline", "report", "races", "core", "digest"]
# The schedules of `race`, each with the numbers of workers that it is replayed with.
SCHEDULES = [("one-worker", "14"), ("three-workers", "34"), ("early-turn", "24")]
# The guests that are debugged, and what gdb asks of each: forward to breakpoints and watched words, back, by single steps, and by commands.
DEBUGGED = ["race", "signal", "release-race"]
PACKETS = [
    "QStartNoAckMode", "qSupported:swbreak+;hwbreak+", "?", "Z0,10018,4", "vCont;c", "g", "m20000,10", "vCont;s:1;c", "z0,10018,4",
    "Z2,20000,4", "vCont;c", "vCont;s:1", "bs", "vCont;c", "bc", "z2,20000,4", *(f"qRcmd,{it.hex()}" for it in (b"turn 3", b"go 7")),
    "bs", "vCont;c", *(f"qRcmd,{it.hex()}" for it in (b"trace", b"writers 20000 4", b"threads", b"locks")),
    "qXfer:threads:read::0,fff", "bc", "vCont;c", "vCont;c",
]


class Answer:
    """What a run answered, and how many requests it made and was refused."""

    def __init__(self, status, output, complaint, files, requests, refusals):
        self.said = (status, output, complaint, files)
        self.requests, self.refusals = requests, refusals

    def is_true(self, wanted):
        return self.said == wanted.said

    def is_out_of_memory(self, wanted):
        status, output, complaint, files = self.said
        true = wanted.said[3]
        whole = next((place for place, it in enumerate(files) if it != true[place]), len(files))
        are_first = not any(files[whole:])
        return (status, complaint) == OUT_OF_MEMORY and wanted.said[1].startswith(output) and are_first


class Sweep:
    """A command whose requests are refused in turn."""

    def __init__(self, room, words, given=b"", records=(), seconds=SECONDS):
        self.room, self.words, self.given, self.seconds = room, words, given, seconds
        self.records = [f"{room}/{it}" for it in records]

    def run(self, **settings):
        for file in self.records:
            if os.path.exists(file):
                os.remove(file)
        env = {**os.environ, "LD_PRELOAD": f"{self.room}/refuse.so", "REQUESTS": f"{self.room}/requests"}
        env.update({name: str(number) for name, number in settings.items()})
        try:
            ran = subprocess.run(self.words, input=self.given, capture_output=True, env=env, cwd=self.room, timeout=self.seconds)
        except subprocess.TimeoutExpired:
            sys.exit(f"{self.words} with {settings}: it didn't end within {self.seconds} seconds")
        if ran.returncode < 0:
            sys.exit(f"{self.words} with {settings}: a crash, signal {-ran.returncode}")
        requests, refusals = (int(word) for word in contents(f"{self.room}/requests").split())
        files = [contents(it) or b"" for it in self.records]
        return Answer(ran.returncode, ran.stdout, ran.stderr, files, requests, refusals)

    def in_turn(self, wanted):
        """Refuses one request after another, up to the last of the longest run. Yields the number of each, and the answer."""
        number, longest = 1, wanted.requests
        while number <= longest:
            answer = self.run(REFUSE=number)
            yield number, answer
            number, longest = number + 1, max(longest, answer.requests)

    def each(self, name):
        """Sees that each answer is the true one or out of memory."""
        wanted = self.run(REFUSE=0)
        longest, refusals, ended = wanted.requests, 0, 0
        for number, answer in self.in_turn(wanted):
            ends = answer.is_out_of_memory(wanted)
            if not ends and not answer.is_true(wanted):
                sys.exit(f"{name}: another answer with request {number} refused: {str(answer.said)[:SHOWN]}")
            longest, refusals, ended = max(longest, answer.requests), refusals + answer.refusals, ended + ends
        see_swept(name, refusals, wanted.requests - self.spread(), longest, ended)
        print(f"{name}: {refusals} of {longest} requests refused in turn, {ended} times out of memory", flush=True)

    def spread(self):
        """Returns by how many requests two runs can differ: host threads may be started or not."""
        return SPREAD if self.words[1] == "debug" or self.words[1:2] == ["run"] and "1" not in self.words else 0


def see_swept(name, refusals, least, longest, ended):
    """Ends with what a sweep lacks, if its refusals didn't reach the program: fewer requests were refused than must be, or a tenth of the
    longest run's were not, or no answer was out of memory."""
    if refusals < least or 10 * refusals < 9 * longest:
        sys.exit(f"{name}: {refusals} requests were refused, not {least}, and the longest run makes {longest}")
    if not ended:
        sys.exit(f"{name}: no answer was out of memory, with {refusals} requests refused in turn")


def calls(room, program):
    """Tries the calls that are made again if they are refused, and those that take no memory."""
    sweep = Sweep(room, [program])
    wanted = sweep.run(REFUSE=0)
    if wanted.said[1] != contents(f"{TOP}/crates/test_alloc_failures/stdout"):
        sys.exit("alloc_failures: another text than its file stdout")
    marks = [it for it in wanted.said[1].splitlines() if it.startswith(b"a request ")]
    if marks != [b"a request before them: given", b"a request after them: given"]:
        sys.exit(f"alloc_failures: no two requests round the quiet calls: {marks}")
    refusals = 0
    for number, answer in sweep.in_turn(wanted):
        refusals += answer.refusals
        text = answer.said[1].replace(b"them: refused", b"them: given")
        if (answer.said[0], text) != (0, wanted.said[1]):
            sys.exit(f"alloc_failures: another text with request {number} refused")
    if refusals < wanted.requests:
        sys.exit(f"alloc_failures: {refusals} requests were refused of {wanted.requests}")
    quiet = sweep.run(REFUSE_FROM=wanted.requests - 1)
    text = wanted.said[1].replace(b"them: given", b"them: refused")
    if (quiet.said[0], quiet.said[1], quiet.refusals) != (0, text, 2):
        sys.exit(f"alloc_failures: the calls that take no memory answer otherwise, or take some: {quiet.said[1].decode()}")
    print(f"alloc_failures: {refusals} requests refused in turn, and all from {wanted.requests - 1} on at once", flush=True)


def is_line_of(line, wanted):
    """Whether a line of a phase is the true one, or says out of memory."""
    return line in (wanted, wanted.rpartition(b": ")[0] + b": out of memory")


def phases(room, program):
    """Tries phases of the guests by one worker and by four, and the draws, which take no memory."""
    sweep = Sweep(room, [program, "failures"])
    wanted = sweep.run(REFUSE=0)
    every = contents(f"{TOP}/crates/test_host_threads/stdout").splitlines()
    lines = every[every.index(b"a request before them: given") :]
    if wanted.said[1].splitlines() != lines:
        sys.exit("host_threads: another text than the end of its file stdout")
    longest, refusals, short, before = wanted.requests, 0, 0, None
    for number, answer in sweep.in_turn(wanted):
        longest, refusals = max(longest, answer.requests), refusals + answer.refusals
        text = answer.said[1].replace(b"them: refused", b"them: given").splitlines()
        if b"a request before them: refused" in answer.said[1].splitlines():
            before = number
        if text[0] == b"draws: out of memory":
            text[0:1] = lines[0:3]
        if answer.said[0] != 0 or len(text) != len(lines) or not all(map(is_line_of, text, lines)):
            sys.exit(f"host_threads: another text with request {number} refused: {answer.said}")
        short += text != lines
    see_swept("host_threads", refusals, wanted.requests - SPREAD, longest, short)
    if before is None:
        sys.exit("host_threads: the request before the draws was never refused")
    quiet = sweep.run(REFUSE_FROM=before).said[1].splitlines()
    if quiet[:3] != [lines[0].replace(b"given", b"refused"), lines[1], lines[2].replace(b"given", b"refused")]:
        sys.exit(f"host_threads: the draws answer otherwise, or take memory: {quiet[:3]}")
    if not all(it.endswith(b": out of memory") for it in quiet[3:]):
        sys.exit(f"host_threads: an answer without memory: {quiet[3:]}")
    print(f"host_threads: {refusals} requests refused in turn, {short} times out of memory, and all from {before} on at once", flush=True)


def runs(room, program):
    """Yields the sweeps of the whole program on each guest, each with its name."""
    for guest, given, more in GUESTS:
        file = f"{TOP}/samples/{guest}.elf"
        yield f"disasm {guest}", Sweep(room, [program, "disasm", file], given)
        yield f"info {guest}", Sweep(room, [program, "info", file], given)
        for workers in "124":
            words = [program, "run", file, "--workers", workers, *more]
            recorded = [*words, *(it for name in RECORDS for it in (f"--{name}", f"{room}/{name}"))]
            yield f"run {guest}, {workers} workers", Sweep(room, words, given)
            yield f"run {guest}, {workers} workers, recorded", Sweep(room, recorded, given, RECORDS)


def by_workers(room, program):
    """Yields the sweeps of the gate, each with its name: two guests with long jobs by two and by four workers."""
    for guest, code in (("racing", fixed_guests.racing()), ("gaps", fixed_guests.gaps())):
        file = f"{room}/{guest}.elf"
        write_file(file, code)
        for workers in "24":
            words = [program, "run", file, "--workers", workers]
            yield f"run {guest}, {workers} workers", Sweep(room, words, seconds=GATE_SECONDS)


def one_file(room, program):
    """Yields the sweep of a run whose outputs are one file under two names, with its name."""
    words = [program, "run", f"{TOP}/samples/race.elf", "--trace", "trace", "--report", "./trace"]
    yield "run race, two names of one file", Sweep(room, words, records=["trace"], seconds=GATE_SECONDS)


def replays(room, program):
    """Yields the sweeps of the whole program on each schedule, each with its name."""
    for schedule, numbers in SCHEDULES:
        files = [f"{TOP}/samples/race.elf", f"{TOP}/samples/race-{schedule}.schedule"]
        for workers in numbers:
            words = [program, "replay", *files, "--workers", workers]
            yield f"replay race, {schedule}, {workers} workers", Sweep(room, words)


def debugs(room, program):
    """Yields the sweeps of debugging sessions, each with its name."""
    given = b"+".join(framed(it.encode()) for it in PACKETS)
    for guest in DEBUGGED:
        yield f"debug {guest}", Sweep(room, [program, "debug", f"{TOP}/samples/{guest}.elf"], given)


def library(room):
    """Builds the library that refuses."""
    words = ["cc", "-O2", "-fno-builtin", "-shared", "-fPIC", "-o", f"{room}/refuse.so", f"{TOP}/tools/refuse.c"]
    subprocess.run(words, check=True)


def built(name):
    """Builds a program of the repository, and returns its path."""
    folder = f"{TOP}/crates/{name}"
    subprocess.run(["rt", "run"], cwd=folder, check=True, stdout=subprocess.DEVNULL, stderr=subprocess.DEVNULL)
    return f"{folder}/out/{name}"


def dthreads():
    """Returns the path of the program, which is built if none is named."""
    if "DTHREADS" in os.environ:
        return os.path.abspath(os.environ["DTHREADS"])
    subprocess.run([f"{TOP}/dthreads", "--build"], check=True, stdin=subprocess.DEVNULL)
    return f"{TOP}/crates/command/out/command"


def arguments(parser):
    parser.add_argument("word", nargs="?", default="", metavar="WORD", help="the lines whose names have this word (default: all)")
    parser.add_argument("--gate", action="store_true", help="the gate's part alone: runs by several workers")


def sweep(options):
    """Refuses each request for memory of some programs, one after another, and looks at what they answer."""
    with tempfile.TemporaryDirectory(prefix="sweep-memory-") as room, Progress("lines") as progress:
        library(room)
        for name, does in () if options.gate else (("test_alloc_failures", calls), ("test_host_threads", phases)):
            if options.word in name:
                progress.at = name
                does(room, built(name))
        kinds = (by_workers, one_file) if options.gate else (runs, by_workers, one_file, replays, debugs)
        program = dthreads()
        chosen = [it for kind in kinds for it in kind(room, program) if options.word in it[0]]
        progress.total = len(chosen)
        for name, one in progress.each(chosen, lambda it: it[0]):
            one.each(name)
    return 0
