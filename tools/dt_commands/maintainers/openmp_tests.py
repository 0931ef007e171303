"""The tests of OpenMP: those test programs of libgomp that run, in C and C++.

It takes them from Debian's package gcc-12-source, and needs guest/build-libgomp, and for C++ guest/build-libstdcxx. Each is built with the
options that it names itself, and run by guest/dthreads-exec with 1 and 4 workers: the wanted end and output, and one digest. What fails must
be what FAILING lists. It takes a processor some half an hour. DTHREADS names the program to run them with, or else ./dthreads.
"""
import glob
import os
import re
import subprocess
import tempfile
import threading
from collections import namedtuple

from dt_commands import guest_runs, lanes
from dt_commands.dejagnu import Directives
from dt_commands.guest_tests import has_cxx
from dt_commands.progress import Progress
from dt_commands.texts import contents

SOURCES = "/usr/src/gcc-12/gcc-12*.tar.xz"
PARTS = ["*/libgomp/*.h", "*/libgomp/testsuite/libgomp.c*", "*/include"]
OUT = f"{guest_runs.KIT}/out"
WORKERS = (1, 4)
BOUND, SECONDS = "20000000000", 1800
# What holds for the machine, of the names that selectors have.
MACHINE = {"riscv32-unknown-elf", "tls", "tls_runtime", "size32plus", "sync_int_long", "sync_char_short", "large_long_double", "alias", "pthread",
           "fopenmp"}
# Folders of each language, and what the files end with.
FOLDERS = [("c", "libgomp.c", ".c"), ("c", "libgomp.c-c++-common", ".c"), ("c++", "libgomp.c++", ".C"), ("c++", "libgomp.c-c++-common", ".c")]
# The tests that fail, and why.
FAILING = {
    "libgomp.c/pr52547.c": "the address of a nested function is code on the stack, where the machine executes none",
    "libgomp.c-c++-common/pr106449.c": "its arrays take more than the first thread's stack of 256 KiB",
}

Program = namedtuple("Program", "name language folder file directives")


def arguments(parser):
    parser.add_argument("names", nargs="*", metavar="NAME", help="the tests, as libgomp.c/loop-1.c (default: all)")
    parser.add_argument("--language", choices=["c", "c++"], help="the tests of one language alone")
    parser.add_argument("--source", metavar="FOLDER", help="a folder that has libgomp and include of the compiler's sources")
    parser.add_argument("--lanes", type=int, default=2, metavar="N", help="how many at a time (default: 2)")
    guest_runs.with_share(parser)


def unpacked(room):
    """Unpacks what is needed of the compiler's sources, and returns the folder."""
    found = sorted(glob.glob(SOURCES))
    if not found:
        raise SystemExit("the package gcc-12-source is missing: apt-get install gcc-12-source")
    subprocess.run(["tar", "xf", found[0], "-C", room, "--strip-components=1", "--wildcards", *PARTS], check=True)
    return room


def programs(source):
    """Yields the tests that run on this machine."""
    for language, folder, ending in FOLDERS:
        for file in sorted(glob.glob(f"{source}/libgomp/testsuite/{folder}/*{ending}")):
            with open(file, encoding="utf-8", errors="replace") as it:
                directives = Directives(it.read(), MACHINE | {language})
            name = f"{folder}/{os.path.basename(file)}"
            if directives.is_run():
                yield Program(f"{name} as C++" if language == "c++" and ending == ".c" else name, language, folder, file, directives)


def built(program, source, elf):
    """Builds a test. Returns what the compiler said if it is not built."""
    words = ["--c++"] if program.language == "c++" else []
    sources = [f"{os.path.dirname(program.file)}/{it}" for it in program.directives.sources()]
    folders = [f"-I{it}" for it in (f"{source}/include", f"{source}/libgomp", f"{os.environ.get('DTHREADS_LIBGOMP') or OUT}/libgomp")]
    return guest_runs.compiled([*words, "-fopenmp", *folders, *program.directives.options(["-O2"]), program.file, *sources, "-lm"], elf)


def faults(program, elf, room):
    """Yields what is wrong with the runs of a test."""
    digests = set()
    for workers in WORKERS:
        words = [part for it in program.directives.variables() for part in ("--env", it)]
        command = [f"{guest_runs.KIT}/dthreads-exec", elf, *words, "--workers", str(workers), "--bound", BOUND, "--digest", f"{room}/digest"]
        ran = guest_runs.ended_within(SECONDS, command)
        if ran is None:
            yield f"no end within {SECONDS} seconds"
            return
        status, text = ran
        if (status != 0) != program.directives.is_to_fail():
            yield f"status {status} with {workers} workers: {text[-200:]!r}"
            return
        if not re.search(program.directives.output(), text):
            yield f"another output: {text[:200]!r}"
        digests.add(contents(f"{room}/digest"))
    if len(digests) != 1 or None in digests:
        yield "another digest"


def tried(program, source):
    """Builds and runs a test. Returns what is wrong with it, or nothing."""
    with tempfile.TemporaryDirectory() as room:
        elf = f"{room}/{os.path.basename(program.file)}.elf"
        said = built(program, source, elf)
        if said is not None:
            return "doesn't build: " + next((it for it in said.split("\n") if "error" in it or it.startswith("dthreads-cc:")), said)[-200:]
        return "; ".join(faults(program, elf, room))


class Results:
    """Counts what was tried, of each folder and language, and tells failures that aren't known and known ones that aren't."""

    def __init__(self):
        self.tally, self.counts, self.lock = guest_runs.Tally(), {}, threading.Lock()

    def add(self, program, wrong):
        with self.lock:
            passed, tried_ones = self.counts.get((program.folder, program.language), (0, 0))
            self.counts[program.folder, program.language] = passed + (not wrong), tried_ones + 1
            self.tally.tried += 1
            if bool(wrong) != (program.name in FAILING):
                self.tally.fail(f"{program.name}: {wrong or 'passes, and FAILING has it'}")
            elif wrong:
                print(f"{program.name}: {FAILING[program.name]}: {wrong}", flush=True)


def test(options):
    """Builds and runs libgomp's own test programs of OpenMP, with 1 and 4 workers."""
    results = Results()
    with tempfile.TemporaryDirectory() as room:
        source = os.path.abspath(options.source) if options.source else unpacked(room)
        chosen = [it for it in programs(source) if not options.names or it.name in options.names]
        chosen = [it for it in chosen if options.language in (None, it.language) and (it.language == "c" or has_cxx())]
        chosen = guest_runs.share(options.share, chosen)

        with Progress("tests", len(chosen)) as progress:

            def ended(program, wrong):
                progress.done += 1
                results.add(program, wrong)
                return []

            lanes.tasks_in_lanes(options.lanes, [(it, lambda it=it: tried(it, source)) for it in chosen], ended)
    for (folder, language), (passed, count) in sorted(results.counts.items()):
        print(f"{folder}, {language}: {passed} of {count}")
    return results.tally.status("tests of libgomp", f", {sum(it for it, _ in results.counts.values())} of which pass with 1 and 4 workers")
