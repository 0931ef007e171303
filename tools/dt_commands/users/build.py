"""Proves and builds the program and the crates below it, several at a time, by the toolchain's own commands.

What is built stays when the build is interrupted, and the next one goes on from there. At the end it says whether the program is the
released one, byte for byte. `./dthreads --build` is this command, and `./dthreads` calls it if it has no program to start.
"""
import contextlib
import glob
import os
import signal
import sys
import time

from dt_commands import built_from, lanes, release, toolchain
from dt_commands.progress import minutes
from dt_commands.repository import TOP, below
from dt_commands.texts import contents

COMMAND = f"{TOP}/crates/command"
LOG = f"{COMMAND}/out/build.log"
# The processor seconds that a crate takes at least, and for each line of its files, on a fast machine.
EACH_CRATE, EACH_LINE = 15, 0.08
# How much of a failed build's output is shown.
SHOWN = 40


def arguments(parser):
    parser.add_argument("--lanes", type=int, metavar="N", help=lanes.HELP)
    parser.add_argument("--start", action="store_true", help="then start the program in place of this command")
    parser.add_argument("--word", action="append", default=[], metavar="WORD", help="a word to start it with, behind a colon, as --word=:run")


def say(text):
    print(f"dthreads: {text}", file=sys.stderr, flush=True)


def cost(name):
    """Returns the processor seconds that the crate is likely to take."""
    files = [it for part in ("src", "specs", "proofs") for it in glob.glob(f"{TOP}/crates/{name}/{part}/**/*.*", recursive=True)]
    return EACH_CRATE + EACH_LINE * sum((contents(it) or b"").count(b"\n") for it in files)


def show_failure():
    say(f"a crate was not built. The output, whole in {os.path.relpath(LOG)}, ends:")
    print(*contents(LOG).decode(errors="replace").splitlines()[-SHOWN:], sep="\n", file=sys.stderr, flush=True)


def are_built(names, lane_count):
    """Builds the crates, the program among them, and says each that is done. Returns whether all are built."""
    begun, done = time.time(), []
    low = sum(map(cost, names)) / lane_count / 60
    say(f"building {len(names)} crates, {lane_count} at a time: from nothing this takes {low:.0f} to {2 * low + 1:.0f} minutes")

    def ended(name):
        done.append(name)
        say(f"{len(done)} of {len(names)}: {name} ({minutes(time.time() - begun)} so far)")

    with open(LOG, "w", encoding="utf-8", errors="replace") as log:
        words = ["rt", "all", "check", "--jobs", str(lane_count)]
        ran = toolchain.start(words, cwd=COMMAND, stdout=toolchain.PIPE, stderr=toolchain.STDOUT, errors="replace")
        for line in ran.stdout:
            print(line, end="", file=log, flush=True)
            if line.startswith("== ") and line[3:].strip() in names[:-1]:
                ended(line[3:].strip())
        status = ran.wait() or toolchain.start(["rt", "run", "--", "--help"], cwd=COMMAND, stdout=log, stderr=log).wait()
    if status or not os.access(release.BUILT, os.X_OK):
        show_failure()
        return False
    ended(names[-1])
    return True


def named():
    """Returns the program by a file of its own name, which the host shows, or by that of its crate if there can't be one."""
    file = f"{COMMAND}/out/dthreads"
    with contextlib.suppress(OSError):
        if not (os.path.exists(file) and os.path.samefile(file, release.BUILT)):
            with contextlib.suppress(FileNotFoundError):
                os.remove(file)
            os.link(release.BUILT, file)
        return file
    return release.BUILT


def build(lane_count):
    """Builds the program, and returns the status."""
    if not toolchain.path():
        say(f"the program has to be built, and {toolchain.LACKS}")
        return 1
    toolchain.end_at_signals(lambda: say("interrupted: what is built stays, and the next build goes on from there"))
    text, version = built_from.listed(), toolchain.version()
    if not version:
        say("`rt version` failed: see that the Rattle toolchain is whole")
        return 1
    os.makedirs(f"{COMMAND}/out", exist_ok=True)
    if not are_built(below("command"), lanes.count(lane_count)):
        return 1
    if built_from.listed() != text:
        say("a source changed during the build, so the program is of neither: build again")
        return 1
    built_from.write(f"{TOP}/{built_from.OF_BUILD}", version, text)
    return 0


def say_why():
    """Says why the program is built that is to be started, if the release could have been started in its place."""
    reason = release.why_other_sources()
    if reason:
        say(f"{reason}. So the program is built first; the release itself can still be started as it is")


def run(options):
    if options.start:
        say_why()
    status = build(options.lanes)
    if not status and options.start:
        for it in (signal.SIGPIPE, signal.SIGXFSZ):
            signal.signal(it, signal.SIG_DFL)
        os.execv(named(), ["dthreads", *(it[1:] for it in options.word)])
    if not status:
        say(release.comparison()[1])
    return status
