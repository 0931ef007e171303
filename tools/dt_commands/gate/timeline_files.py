"""Timelines of runs, beside their traces and reports, and with other numbers of workers.

Guests are the samples, the programs of crates/test_guest_runs/data, random programs, the samples in C and, if the compiler is there, the
programs of guest/tests, with no quantum and with others. That the text is the one of the definitions is proved. Here each timeline must be
JSON that keeps the rules of trace_event_rules, with the turns of the run's trace and as many changed pages as the report has. Status, output, trace, report and timeline must be the same
for 1, 2, 4 and 64 workers. The timeline and the races beside the sample race must be what the program writes. DTHREADS names the program that
runs the guests, or else ./dthreads.
"""
import json
import os
import random
import re
import shutil
import subprocess
from collections import namedtuple

from dt_commands import c_samples, guest_runs, guest_tests, random_guests, sample_pictures, trace_event_rules, written_guests
from dt_commands.repository import TOP
from dt_commands.texts import contents, write_file

SECONDS = 120
# The tracks have the numbers of their threads.
FIRST_TRACK = 0
# A quantum that would give a run more turns than these is left out.
MOST_TURNS = 6000
# Samples without an end get this bound.
ENDLESS, BOUND = ("counting", "mixed", "turns"), ["--bound", "20000"]
QUANTA = {"written": (None, 1, 2, 3, 7, 100), "random": (None, 1000), "c": (None, 10_000)}
# A guest: its name, its file, or a function that makes it in a folder, the words of its run, its input, and the quanta it is tried with.
Guest = namedtuple("Guest", "name file words given quanta")
Run = namedtuple("Run", "status output errors texts")
TEXTS = ("trace", "report", "timeline")
LINE = re.compile(r"(\d+) (\d+) (\S.*) changed=(\d+) ran=(\d+)")


def arguments(parser):
    parser.add_argument("names", nargs="*", metavar="PROGRAM", help="the guests whose names begin so (default: all)")
    parser.add_argument("--brief", action="store_true", help="the gate's part alone: no program of guest/tests, and every fourth random one")
    parser.add_argument("--seeds", type=int, default=60, metavar="N", help="how many random programs (default: 60)")
    guest_runs.with_share(parser)


def run(guest, file, quantum, room, workers, kinds=TEXTS):
    """Runs a guest, and returns all that the run gives: its status, output and line on standard error, and the texts of these kinds, or
    None for each that it doesn't leave."""
    files = {it: f"{room}/{it}" for it in kinds}
    for it in files.values():
        if os.path.exists(it):
            os.remove(it)
    words = [*guest.words, *(["--quantum", str(quantum)] if quantum else []), "--workers", str(workers)]
    words += [word for it in kinds for word in (f"--{it}", files[it])]
    ran = subprocess.run([guest_runs.program(), "run", file, *words], input=guest.given, capture_output=True, timeout=SECONDS, check=False)
    return Run(ran.returncode, ran.stdout, ran.stderr, [contents(it) for it in files.values()])


def turns_traced(trace):
    """Returns what a trace has of each turn: its number, phase and thread, what it did, changed bytes and instructions."""
    found = enumerate(map(LINE.fullmatch, trace.splitlines()), 1)
    return [(number, int(it[1]), int(it[2]), it[3], int(it[4]), int(it[5])) for number, it in found]


def turns_shown(events):
    """Returns the same of a timeline's events. The turn of a woken thread, which has no segment, has its phase from no event."""
    segments = {it["args"]["turn"]: it for it in events if it.get("cat") == "segment"}
    threads = {it["tid"]: int(it["args"]["name"].rpartition(" ")[2]) for it in events if it["ph"] == "M"}
    for it in (it for it in events if it.get("cat") == "turn"):
        number = it["args"]["turn"]
        segment = segments.get(number, {"args": {"phase": None, "changed": 0}, "dur": 0})
        yield number, segment["args"]["phase"], threads[it["tid"]], it["args"]["text"], segment["args"]["changed"], segment["dur"]


def pages_reported(report):
    """Returns how many pages the turns changed in all, by the run's report."""
    return sum(map(int, re.findall(r"^page=\w+ turns=(\d+)", report, re.M)))


def faults(trace, report, text):
    """Yields in what a timeline differs from the trace and the report of its run."""
    try:
        whole = json.loads(text)
        shown, wanted = list(turns_shown(whole["traceEvents"])), turns_traced(trace)
        pages = sum(it["args"]["pages"] for it in whole["traceEvents"] if it.get("cat") == "segment")
        told = [whole["otherData"][it] for it in ("turns", "instructions")]
    except (ValueError, KeyError, TypeError) as why:
        yield f"it is no timeline: {why!r}"
        return
    yield from trace_event_rules.broken(whole, FIRST_TRACK)
    wanted = [it if not it[3].startswith("wake ") else (it[0], None, *it[2:]) for it in wanted]
    differing = [(one, other) for one, other in zip(shown, wanted) if one != other]
    if differing or len(shown) != len(wanted):
        yield f"{len(shown)} turns of {len(wanted)}; the first that differs is {differing[:1]}"
    if told != [len(wanted), sum(it[-1] for it in wanted)]:
        yield f"its sums are {told}"
    if pages != pages_reported(report):
        yield f"the turns changed {pages} pages in all, the report says {pages_reported(report)}"


def test_guest(tally, room, guest):
    """Tries a guest with each of its quanta and each number of workers."""
    file = guest.file
    if callable(file):
        file = f"{room}/program.elf"
        said = guest.file(file)
        if said is not None:
            tally.fail(f"{guest.name}: doesn't build: {said}")
            return
    instructions = 0
    for quantum in guest.quanta:
        if quantum and instructions / quantum > MOST_TURNS:
            continue
        where = f"{guest.name}{f', quantum {quantum}' if quantum else ''}"
        first = run(guest, file, quantum, room, 1)
        if None in first.texts:
            tally.fail(f"{where}: no timeline: {first.errors[:200]}")
            return
        trace, report, timeline = (it.decode() for it in first.texts)
        instructions = instructions or sum(it[-1] for it in turns_traced(trace))
        for it in faults(trace, report, timeline):
            tally.fail(f"{where}: {it}")
        for workers in guest_runs.WORKERS[1:]:
            if run(guest, file, quantum, room, workers) != first:
                tally.fail(f"{where}: {workers} workers give another run than one")


def test_picture(tally, room, name):
    """Compares the files that the picture of the pages is drawn of with what the program writes."""
    guest = Guest(name, f"{sample_pictures.SAMPLES}/{name}.elf", [], b"", ())
    found = run(guest, guest.file, None, room, 1, ["timeline", "check"])
    for file, text in zip((sample_pictures.TIMELINE, sample_pictures.RACES), found.texts):
        if text is None or text != contents(file):
            tally.fail(f"{os.path.relpath(file, TOP)} isn't what the program writes: {found.errors[:200]}")


def of_samples():
    """Yields the samples that aren't in C, and the programs of crates/test_guest_runs/data with each of their runs."""
    for name in written_guests.names():
        own = written_guests.runs(name) or [written_guests.Run(name, BOUND if name in ENDLESS else [], b"")]
        for it in own:
            quanta = (None,) if "--quantum" in it.words or name in ENDLESS else QUANTA["written"]
            yield Guest(f"{name}{''.join(f' {word}' for word in it.words)}", writer(written_guests.elf(name)), it.words, it.given, quanta)


def writer(data):
    """Returns what writes these bytes to a file."""
    return lambda file: write_file(file, data)


def of_seeds(count, is_brief):
    """Yields random programs, those of the first seeds."""
    for seed in range(1, count + 1, 4 if is_brief else 1):
        elf = random_guests.guest(random.Random(seed))
        yield Guest(f"seed-{seed}", writer(elf), ["--bound", "100000"], b"some input to be read by several threads", QUANTA["random"])


def in_c(is_brief):
    """Yields the samples in C, and the programs of guest/tests if the compiler is there."""
    for it in c_samples.samples():
        yield Guest(f"c/{it.name}", it.program, it.words, contents(it.given) if it.given else b"", QUANTA["c"])
    if is_brief:
        return
    if not shutil.which("riscv64-unknown-elf-gcc"):
        print("guest/tests: left out, there is no compiler of guest programs")
        return
    for it in guest_tests.programs():
        made = lambda file, it=it: guest_runs.compiled(["-O2", *it.of_compiler, it.source], file, it.folder)
        quanta = (None,) if "--quantum" in it.of_run else QUANTA["c"]
        yield Guest(f"tests/{it.name}", made, it.of_run, contents(it.given) if it.given else b"", quanta)


def test(options):
    """Runs programs with --timeline: it has what trace and report have, and all that a run gives is the same with any number of workers."""
    guests = [*of_samples(), *of_seeds(options.seeds, options.brief), *in_c(options.brief)]
    guests = [it for it in guests if not options.names or it.name.startswith(tuple(options.names))]
    drawn, every = [] if options.names else [sample_pictures.NAME], guest_runs.share(options.share, guests)
    status = guest_runs.all_tried("pictures", drawn, test_picture, ": drawn of what the program writes", str) if drawn else 0
    return max(status, guest_runs.all_tried("guests", every, test_guest, ", each timeline as its trace and report, with 1, 2, 4 and 64 workers"))
