"""Real programs: Debian's sources, built unchanged for the guest machine, and compared with the host's build.

By hand, and only with a network: it fetches sources by `apt-get source`, with lists of its own (no root, no change to the host's lists). It
builds each program of tools/guests/real/list by dthreads-cc and natively, if the host hasn't its command in the same version. It runs both on
the same input, and compares output and status byte for byte, and the digests of runs by guest/dthreads-exec with 1, 4 and 64 workers. It prints
a table, each row once it is known: version, whether the program builds, whether each run gives what the host's build gives, whether the digests
are one, and turns and instructions of the first run. Programs in C++ need guest/build-libstdcxx first, SQLite needs tclsh. All take a processor
some half an hour. DTHREADS names the program to run the guests with, or else ./dthreads.
"""
import glob
import os
import re
import shlex
import shutil
import subprocess
import sys
import tempfile

from dt_commands import guest_tests
from dt_commands.real_list import PROGRAMS
from dt_commands.repository import TOP
from dt_commands.texts import contents, write_file

WORKERS = (1, 4, 64)
GUESTS = f"{TOP}/tools/guests"
BOUND = "1099511627776"
# The suites that sources are taken from: the first whose archive the mirror has.
SUITES = ("bookworm", "trixie")
LIST = "deb-src [signed-by=/usr/share/keyrings/debian-archive-keyring.gpg] http://deb.debian.org/debian {} main\n"
HEADS = ["Program", "Version", "Arguments", "Runs as the host's", "One digest", "Turns", "Instructions"]


def arguments(parser):
    parser.add_argument("names", nargs="*", metavar="NAME", help="programs (default: all): " + ", ".join(one.name for one in PROGRAMS))
    parser.add_argument("--sources", metavar="FOLDER", help="a folder that keeps the fetched archives, and has them from an earlier call")
    parser.add_argument("--built", metavar="FOLDER", help="a folder that keeps the built programs, and has them from an earlier call")
    parser.add_argument("--jobs", type=int, default=2, metavar="N", help="how many compilers run at a time (default: 2)")


def say(text):
    print("real: " + text, file=sys.stderr, flush=True)


class Failure(Exception):
    """Why a program has no row of numbers."""


def shell(command, folder, variables):
    environment = dict(os.environ, **variables)
    done = subprocess.run(["bash", "-c", command], cwd=folder, env=environment, stdout=subprocess.PIPE, stderr=subprocess.STDOUT)
    if done.returncode != 0:
        lines = done.stdout.decode(errors="replace").strip().split("\n")
        wrong = [line for line in lines if re.search(r"\b[Ee]rror\b|undefined reference", line)] or lines[-1:]
        raise Failure("doesn't build: " + wrong[0][:160])


class Archives:
    """Sources of Debian, in a folder."""

    def __init__(self, folder):
        self.folder, self.is_listed = folder, False
        os.makedirs(f"{folder}/lists/partial", exist_ok=True)
        os.makedirs(f"{folder}/cache/archives/partial", exist_ok=True)
        write_file(f"{folder}/sources.list", "".join(LIST.format(suite) for suite in SUITES))

    def apt(self, *words):
        options = {"Dir::Etc::sourcelist": "sources.list", "Dir::Etc::sourceparts": "none", "Dir::State::lists": "lists",
                   "Dir::Cache": "cache"}
        settings = [word for name, value in options.items() for word in ("-o", f"{name}={self.folder}/{value}")]
        return subprocess.run(["apt-get", "-q", *settings, *words], cwd=self.folder, stdout=subprocess.DEVNULL, stderr=subprocess.DEVNULL)

    def find(self, package):
        """The archive of a package's sources, and its version, or None."""
        for path in sorted(glob.glob(f"{self.folder}/{package}_*.orig.tar.*")):
            if not path.endswith(".asc"):
                return path, re.match(r".*_(.*)\.orig\.tar", path).group(1)
        return None

    def fetch(self, package):
        if not self.find(package):
            if not self.is_listed:
                say("reading the list of sources")
                self.apt("update")
                self.is_listed = True
        for suite in SUITES:
            if not self.find(package):
                self.apt("source", "--tar-only", "--download-only", f"{package}/{suite}")
        if not self.find(package):
            raise Failure(f"the sources of {package} can't be fetched")
        return self.find(package)

    def unpack(self, package, folder):
        path, version = self.fetch(package)
        target = f"{folder}/{package}"
        os.makedirs(target)
        subprocess.run(["tar", "xf", path, "-C", target, "--strip-components=1"], check=True)
        return version


def kit(name):
    return f"{TOP}/guest/{name}"


def guest_variables(jobs):
    return {"CC": kit("dthreads-cc"), "CXX": kit("dthreads-c++"), "FLAGS": "-O2", "HOST": "--host=riscv32-unknown-elf", "JOBS": str(jobs),
            "KIT": kit(""), "GUESTS": GUESTS}


def native_variables(jobs):
    return {"CC": "gcc", "CXX": "g++", "FLAGS": "-O1", "HOST": "", "JOBS": str(jobs), "KIT": "", "GUESTS": GUESTS}


def of_host(program, version):
    """Returns the path of the command that the host has of a program, if it has it in this version."""
    path = program.host and shutil.which(program.host)
    said = subprocess.run([path, "--version"], stdout=subprocess.PIPE, text=True, check=False).stdout if path else ""
    return path if said.split("\n")[0].endswith(" " + version) else None


class Builds:
    """Builds programs, and keeps them in a folder."""

    def __init__(self, archives, folder, jobs):
        self.archives, self.folder = archives, folder
        self.variables = {"native": native_variables(jobs), "elf": guest_variables(jobs)}
        os.makedirs(folder, exist_ok=True)

    def build(self, program, kind):
        """Builds a program in a folder of its own, unless it is there; returns its path and its version."""
        name = program.name.replace(" ", "-")
        out = f"{self.folder}/{name}.{kind}"
        version = self.archives.fetch(program.packages[0])[1]
        if kind == "native" and of_host(program, version):
            return of_host(program, version), version
        if os.path.exists(out):
            return out, version
        with tempfile.TemporaryDirectory() as folder:
            for package in program.packages:
                self.archives.unpack(package, folder)
            say(f"{program.name}: building, {kind}")
            for command in program.commands:
                shell(command, folder, dict(self.variables[kind], **program.variables.get(kind, {}), OUT=out))
        return out, version


def run_native(program, run, path):
    """Runs the host's build in a folder of its own, in the locale of the guest. Returns output and status."""
    with tempfile.TemporaryDirectory() as here:
        for name, made in run.files.items():
            write_file(f"{here}/{name}", made())
        name = program.name.split()[0]
        done = subprocess.run([name, *run.arguments], executable=path, input=run.given(), cwd=here, stdout=subprocess.PIPE,
                              stderr=subprocess.DEVNULL, env={**os.environ, "LC_ALL": "C"})
        return done.stdout, done.returncode


def run_guest(run, path, room, workers):
    """Returns what `run_native` does, and the digest of a run, or None if it left none. Its trace is in the folder."""
    words = []
    for name, made in run.files.items():
        write_file(f"{room}/given-{name}", made())
        words += ["--file", f"{name}={room}/given-{name}"]
    for name in ("digest", "trace"):
        if os.path.exists(f"{room}/{name}"):
            os.remove(f"{room}/{name}")
    command = [kit("dthreads-exec"), path, *words, "--workers", str(workers), "--bound", BOUND, "--digest", f"{room}/digest",
               "--trace", f"{room}/trace", "--", *run.arguments]
    done = subprocess.run(command, input=run.given(), stdout=subprocess.PIPE, stderr=subprocess.DEVNULL)
    return (done.stdout, done.returncode), contents(f"{room}/digest")


def count(trace):
    """Turns and instructions of a trace."""
    turns = instructions = 0
    with open(trace, encoding="utf-8") as file:
        for line in file:
            turns += 1
            ran = line.rpartition("ran=")[2]
            instructions += int(ran) if ran.strip().isdigit() else 0
    return turns, instructions


def compare(program, native, guest, room):
    """A row of the table, behind the program's name and version."""
    same, digests_agree, numbers = 0, True, (0, 0)
    for at, run in enumerate(program.runs):
        wanted, digests, is_same = run_native(program, run, native), set(), True
        for workers in WORKERS:
            say(f"{program.name}: run {at + 1} of {len(program.runs)}, {workers} workers")
            got, digest = run_guest(run, guest, room, workers)
            is_same = is_same and got == wanted
            digests.add(digest)
        same += is_same
        digests_agree = digests_agree and len(digests) == 1 and None not in digests
        if at == 0 and os.path.exists(f"{room}/trace"):
            numbers = count(f"{room}/trace")
    return same, digests_agree, numbers


def row_of(program, builds, room):
    """A row of the table, and whether all of it is well."""
    if program.is_cxx and not guest_tests.has_cxx():
        raise Failure("needs guest/build-libstdcxx")
    guest, version = builds.build(program, "elf")
    native = builds.build(program, "native")[0]
    same, is_one, (turns, instructions) = compare(program, native, guest, room)
    words = " ".join(shlex.quote(word) for word in program.runs[0].arguments if "\n" not in word)
    cells = [program.name, version, f"`{words}`" if words else "", f"{same} of {len(program.runs)}", "yes" if is_one else "NO"]
    return [*cells, f"{turns:,}", f"{instructions:,}"], same == len(program.runs) and is_one


def line(cells):
    return "| " + " | ".join(cells) + " |"


def test(options):
    """Builds programs of Debian unchanged, and compares what they do with what the host's builds do."""
    chosen = [one for one in PROGRAMS if not options.names or one.name in options.names]
    failed = 0
    print(line(HEADS))
    print(line(["---"] * len(HEADS)), flush=True)
    with tempfile.TemporaryDirectory() as room:
        archives = Archives(os.path.abspath(options.sources) if options.sources else f"{room}/sources")
        builds = Builds(archives, os.path.abspath(options.built) if options.built else f"{room}/built", options.jobs)
        for program in chosen:
            try:
                row, is_well = row_of(program, builds, room)
                failed += not is_well
            except Failure as failure:
                row, failed = [program.name, str(failure), *[""] * (len(HEADS) - 2)], failed + 1
                say(f"{program.name}: {failure}")
            print(line(row), flush=True)
    print(f"{len(chosen) - failed} of {len(chosen)} programs do what the host's builds do, each run with 1, 4 and 64 workers")
    return 1 if failed or not chosen else 0
