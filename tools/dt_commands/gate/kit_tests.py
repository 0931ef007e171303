"""What users of C run, in lanes, as the gate does: a part that was green with the same files is skipped.

A part that passed leaves a stamp, whose name is the sum of all that it read: its files, the tools' modules, the program that runs the
guests, the compilers and gdb. Stamps are in ${XDG_CACHE_HOME:-~/.cache}/dthreads/green, outside of the checkout, and only such a run writes
them. The parts are calls of `tools/dt`, the long ones as several shares. DTHREADS names the program, or else ./dthreads.
"""
import hashlib
import os
import shutil
import subprocess
import sys
import time
from collections import namedtuple

from dt_commands import guest_runs, lanes, packages, rust_tests
from dt_commands.progress import minutes
from dt_commands.repository import TOP
from dt_commands.texts import contents, read_text, write_file
from dt_mutants.progress import processor_seconds

# A part: its name, the words of its call, in how many shares it is made, and what it reads beside COMMON, from the top.
Part = namedtuple("Part", "name words shares reads")
# What each part reads. Of the folders of tests a part has those that it names.
COMMON = ["guest", "tools/dt", "tools/dt_commands", "samples"]
APART = ["guest/out", "guest/tests"]
CASES = "guest/tests/."
# (the sessions of gdb come first, since they wait more than they compute)
PARTS = [
    Part("sessions of gdb", ["test", "gdb"], 4, ["guest/tests/gdb"]),
    Part("sessions of editors", ["test", "editors"], 1, ["guest/tests/gdb"]),
    Part("hints", ["test", "hints"], 4, [CASES]),
    Part("guest programs", ["test", "guest"], 4, [CASES, "guest/tests/refused"]),
    Part("timelines", ["test", "timeline", "--brief"], 4, [CASES, "crates/test_guest_runs/data", "docs/pictures"]),
    Part("lists of races", ["test", "races"], 4, [CASES, "guest/tests/races"]),
    Part("findings", ["test", "checks"], 4, ["guest/tests/checks"]),
    Part("core files", ["test", "core"], 1, []),
    Part("samples, built anew", ["check", "c-samples"], 1, []),
    Part("table of functions", ["check", "c-functions"], 1, ["docs/C-FUNCTIONS.md"]),
    Part("samples", ["test", "c-samples"], 1, []),
    Part("builds of others", ["test", "builds"], 1, ["guest/tests/builds"]),
    Part("page", ["test", "c-page"], 1, ["docs/C.md", "docs/CLEAN-RUNS.md", "docs/EXPLORING.md", "docs/OPENMP.md"]),
    Part("course", ["test", "course"], 2, ["docs/course"]),
    Part("manual pages", ["test", "manual"], 1, ["guest/tests/manual"]),
]
# What is made if guest/build-rust was done.
OF_RUST = [
    Part("programs in Rust", ["test", "rust", "--programs"], 4, ["guest/tests/rust", "docs/RUST.md"]),
    Part("the crate libc", ["check", "rust-libc"], 1, []),
]
# The commands that build and debug guests; and what the environment says of them.
TOOLS = [f"riscv64-unknown-elf-{it}" for it in ("gcc", "g++", "as", "ld", "ar", "nm", "strip", "objdump", "readelf")]
SETTINGS = ["DTHREADS_LIBSTDCXX", "DTHREADS_LIBGOMP", "DTHREADS_RUST", "MANUAL"]


def arguments(parser):
    parser.add_argument("--lanes", type=int, metavar="N", help=lanes.HELP)
    parser.add_argument("--anew", action="store_true", help="skip nothing")


def files_below(path):
    """Yields the files of a path from the top: of a folder all below it but APART, of one that ends with /. its own alone."""
    if os.path.isfile(f"{TOP}/{path}"):
        yield path
    for folder, folders, names in os.walk(f"{TOP}/{path}"):
        at = os.path.normpath(os.path.relpath(folder, TOP))
        is_flat = path.endswith("/.")
        folders[:] = [] if is_flat else sorted(it for it in folders if it != "__pycache__" and f"{at}/{it}" not in APART)
        yield from (f"{at}/{it}" for it in sorted(names))


def state_of(file):
    """Returns what tells one state of a host's file from another, or nothing of one that isn't there."""
    found = os.path.realpath(file) if file and os.path.exists(file) else None
    return f"{found} {os.stat(found).st_size} {os.stat(found).st_mtime_ns}" if found else "none"


def machine():
    """Returns what the parts use of the machine: the program, the packages' and the tools' files, and settings."""
    with open(guest_runs.program(), "rb") as it:
        yield hashlib.sha256(it.read()).hexdigest()
    marks = [it if it.startswith("/") else shutil.which(it) for it in packages.NEEDED.values()]
    stamps = [f"{guest_runs.KIT}/out/libstdcxx/stamp", f"{guest_runs.KIT}/out/libgomp/stamp", f"{rust_tests.folder()}/stamp"]
    yield from map(state_of, [*marks, *map(shutil.which, TOOLS), *stamps])
    yield from [sys.version, *(f"{it}={os.environ.get(it)}" for it in SETTINGS)]
    words = ["dpkg-query", "-W", *packages.NEEDED]
    yield subprocess.run(words, stdout=subprocess.PIPE, stderr=subprocess.DEVNULL, text=True).stdout if shutil.which("dpkg-query") else ""


def sum_of(part, of_machine):
    """Returns the sum of all that a part reads."""
    made = hashlib.sha256("\n".join([part.name, *part.words, *of_machine]).encode())
    for path in sorted({file for it in (*COMMON, *part.reads) for file in files_below(it)}):
        made.update(f"\n{path} {hashlib.sha256(contents(f'{TOP}/{path}')).hexdigest()}".encode())
    return made.hexdigest()


def stamp_of(a_sum):
    return f"{os.environ.get('XDG_CACHE_HOME') or os.path.expanduser('~/.cache')}/dthreads/green/{a_sum}"


def tasks_of(part):
    """Returns the calls of a part, each as its words."""
    shares = [["--share", f"{it}/{part.shares}"] for it in range(1, part.shares + 1)] if part.shares > 1 else [[]]
    return [[*part.words, *it] for it in shares]


def call(words):
    """Makes a call of `tools/dt`. Returns its status and what it said."""
    ran = subprocess.run([f"{TOP}/tools/dt", *words], stdin=subprocess.DEVNULL, stdout=subprocess.PIPE, stderr=subprocess.STDOUT, errors="replace")
    return ran.returncode, ran.stdout


def counted(said):
    """Returns how many things a call tried, by its last line, and what it says of them."""
    number, _, rest = (said.strip().splitlines() or [""])[-1].partition(" ")
    return int(number) if number.isdigit() else 0, rest


def together(counts):
    """Returns the last lines of a part's calls as one text, those that say the same added."""
    found = {}
    for number, rest in counts:
        found[rest] = found.get(rest, 0) + number
    return "; ".join(f"{number} {rest}" for rest, number in sorted(found.items()))


class Session:
    """One call of the command: the parts that are made, what each has left, and what failed."""

    def __init__(self, parts, does=call, sums=None):
        self.parts, self.does, self.failed, self.begun = parts, does, [], time.time()
        self.sums = sums or (lambda: {it.name: sum_of(it, list(machine())) for it in parts})
        self.before = self.sums()

    def run(self, lane_count, is_anew=False):
        """Makes what isn't stamped, and returns the status."""
        due = [it for it in self.parts if is_anew or not os.path.exists(stamp_of(self.before[it.name]))]
        for part in (it for it in self.parts if it not in due):
            print(f"{part.name}: unchanged since it was green: {read_text(stamp_of(self.before[part.name])).strip()}", flush=True)
        self.left, self.said = {it.name: len(tasks_of(it)) for it in due}, {it.name: [] for it in due}
        every = [(part.name, lambda words=words: self.does(words)) for part in due for words in tasks_of(part)]
        lanes.tasks_in_lanes(lane_count, every, self.ended)
        self.stamp(due)
        print(f"{len(due)} parts of the C kit made, {len(self.parts) - len(due)} unchanged, {len(self.failed)} failed, "
              f"{minutes(time.time() - self.begun)} on {lane_count} lanes, {processor_seconds():.0f} processor seconds", flush=True)
        return 1 if self.failed or not self.parts else 0

    def ended(self, name, result):
        status, said = result
        self.left[name] -= 1
        self.said[name].append(counted(said))
        if status or not counted(said)[0]:
            self.failed.append(name)
            print(f"{name}: FAILED\n{said}", flush=True)
        elif not self.left[name] and name not in self.failed:
            print(f"{name}: {together(self.said[name])} ({minutes(time.time() - self.begun)} so far)", flush=True)
        return []

    def stamp(self, due):
        """Writes the stamps of the parts that passed, if their files are still those with which they began."""
        after = self.sums()
        for part in due:
            if part.name not in self.failed and after[part.name] == self.before[part.name]:
                file = stamp_of(after[part.name])
                write_file(f"{file}.{os.getpid()}", f"{together(self.said[part.name])}\n")
                os.replace(f"{file}.{os.getpid()}", file)


def test(options):
    """Runs what users of C run: the parts on guest programs, races, hints, core files, gdb, timelines and samples, in lanes."""
    if not rust_tests.has_rust():
        print(f"programs in Rust: left out, {rust_tests.why_not()}", flush=True)
    return Session(PARTS + (OF_RUST if rust_tests.has_rust() else [])).run(lanes.count(options.lanes), options.anew)
