"""Sessions of gdb: the files guest/tests/gdb/NAME.session.

A session is a transcript. Its head has lines `word: text`, and lines that begin with # are remarks:

    program: race.c -O2 -g       what guest/dthreads-cc compiles, with its options
    folder: samples/c            the folder for both and for gdb, from the top of the repository (else guest/tests/gdb)
    options: --quantum 100       options of guest/dthreads-gdb, if any
    arguments: one two           arguments of the program, if any
    status: 3                    the status that gdb ends with (else 0)
    seconds: 600                 how long a command may take (else 60)

Then come gdb's commands, each after `(gdb) `, and below each what gdb must print. Empty lines don't count, and a line `...` matches any
lines. Within a line {hex} matches a number such as 0x100a8, {n} a decimal number, and {*} any text. Below a command, `^C` interrupts gdb a
second later, and `^KILL` kills it. However a session ends, `dthreads debug` must end with it.

It needs Debian's gdb-multiarch and the packages that guest/packages lists. DTHREADS names the program that debugs, or else ./dthreads.
"""
import os
import select
import shlex
import signal
import subprocess
import tempfile
import time

from dt_commands import guest_runs, packages
from dt_commands.gdb_transcripts import FOLDER, INTERRUPT, KILL, PROMPT, SILENT, Session, faults, names, rewritten, text_of
from dt_commands.progress import Progress
from dt_commands.texts import read_text, write_file

PACKAGES = {"gdb-multiarch": "gdb-multiarch", "gcc-riscv64-unknown-elf": "riscv64-unknown-elf-gcc"}
# How long a command may take, and how long after its command gdb is interrupted or killed, in seconds.
LIMIT, LATER = 60, 1
# What gdb is told before the session: no answer is asked for, and no line is broken.
SETTINGS = ["set confirm off", "set width 0", "set height 0", "set style enabled off", "set debuginfod enabled off"]


def arguments(parser):
    parser.add_argument("names", nargs="*", metavar="NAME", help="the sessions (default: all)")
    guest_runs.with_share(parser)


class Debugger:
    """A gdb at work on a program. Its commands come one by one, so that what each prints is known."""

    def __init__(self, session, program, room):
        self.room, self.limit = room, int(session.head.get("seconds", LIMIT))
        # (the debugged program's own process is in a session of its own: what it is, it writes down itself)
        write_file(f"{room}/dthreads", f"#!/bin/sh\necho $$ > {room}/pid\nexec {shlex.quote(guest_runs.program())} \"$@\"\n")
        os.chmod(f"{room}/dthreads", 0o755)
        settings = [word for it in SETTINGS for word in ("-iex", it)]
        arguments = ["--", *session.words("arguments")] if "arguments" in session.head else []
        words = [f"{guest_runs.KIT}/dthreads-gdb", program, *session.words("options"), "--", "-nx", *settings, *arguments]
        how = {"stdin": subprocess.PIPE, "stdout": subprocess.PIPE, "stderr": subprocess.STDOUT, "cwd": session.folder}
        environment = {**os.environ, "DTHREADS": f"{room}/dthreads", "TERM": "dumb", "LC_ALL": "C"}
        self.gdb = subprocess.Popen(words, env=environment, start_new_session=True, **how)

    def piece(self, end):
        """Returns what gdb prints next; nothing if it has ended, or None if that time has come."""
        while time.time() < end:
            # (its end is seen by itself too, as the program that debugs may hold its standard output)
            has_ended = self.gdb.poll() is not None
            if select.select([self.gdb.stdout], [], [], 0 if has_ended else 0.1)[0]:
                return os.read(self.gdb.stdout.fileno(), 65536)
            if has_ended:
                return b""
        return None

    def read(self, least=0):
        """Returns what gdb prints up to its next prompt or its end, for which it has at least so many seconds."""
        text, prompt, end = b"", PROMPT.encode(), time.time() + max(self.limit, least)
        while not (text.endswith(b"\n" + prompt) or text == prompt):
            piece = self.piece(end)
            if not piece:
                text += b"" if piece is not None else f"\n{SILENT}".encode()
                break
            text += piece
        text = text.decode(errors="replace")
        return text[: -len(PROMPT)] if text.endswith(PROMPT) else text

    def say(self, command, wanted):
        """Gives a command, and what the first line below it asks for. Returns the lines that gdb prints."""
        self.gdb.stdin.write(f"{command}\n".encode())
        self.gdb.stdin.flush()
        shown = [it for it in wanted[:1] if it in (INTERRUPT, KILL)]
        if shown:
            time.sleep(LATER)
            self.gdb.send_signal(signal.SIGINT if shown[0] == INTERRUPT else signal.SIGKILL)
        return shown + [it.rstrip() for it in self.read().splitlines() if it.strip()]

    def end(self):
        """Ends gdb, if it hasn't ended, and returns its status."""
        try:
            self.gdb.stdin.close()
        except BrokenPipeError:
            pass
        try:
            return self.gdb.wait(LIMIT)
        except subprocess.TimeoutExpired:
            self.gdb.kill()
            return self.gdb.wait()

    def left(self, limit=10):
        """Whether the program that debugs is still there after some seconds; if so, it is ended."""
        number = int(read_text(f"{self.room}/pid"))
        end = time.time() + limit
        while os.path.exists(f"/proc/{number}") and time.time() < end:
            time.sleep(0.02)
        if os.path.exists(f"/proc/{number}"):
            os.kill(number, signal.SIGKILL)
            return True
        return False


def transcript(session, room):
    """Runs a session. Returns its commands with what gdb printed, the status of gdb, and whether `dthreads debug` was left behind; or
    only a text that says why it can't be run."""
    program = f"{room}/{session.name}.elf"
    said = guest_runs.compiled(session.words("program"), program, session.folder)
    if said is not None:
        return f"{said}its program doesn't build"
    debugger = Debugger(session, program, room)
    said = debugger.read(LIMIT)
    if not os.path.exists(f"{room}/pid"):
        debugger.end()
        return f"{said}gdb didn't start the program that debugs"
    got = []
    for command, wanted in session.commands:
        try:
            got.append((command, debugger.say(command, wanted)))
        except BrokenPipeError:
            got.append((command, ["(gdb has ended)"]))
        if got[-1][1][-1:] == [SILENT]:
            debugger.gdb.kill()
            break
    return got, debugger.end(), debugger.left()


def run(chosen):
    """Runs sessions, and yields each with its text and what it came to."""
    packages.want("sessions of gdb need the packages", PACKAGES)
    with Progress("sessions", len(chosen)) as progress:
        for name in progress.each(chosen):
            text = text_of(name)
            session = Session(name, text)
            with tempfile.TemporaryDirectory() as room:
                yield session, text, transcript(session, room)


def write(options):
    """Runs the sessions of gdb in guest/tests/gdb, and writes what gdb prints into sessions that differ."""
    for session, text, found in run(options.names or names()):
        if isinstance(found, str) or found[0][-1][1][-1:] == [SILENT]:
            raise SystemExit(f"{session.name}: {found if isinstance(found, str) else SILENT}")
        fresh = rewritten(text, session, found[0])
        if fresh != text:
            write_file(f"{FOLDER}/{session.name}.session", fresh)
            print(f"{session.name}: written")
    return 0


def test(options):
    """Runs the sessions of gdb in guest/tests/gdb, and compares what gdb prints with what each session says."""
    tally, chosen = guest_runs.Tally(), guest_runs.share(options.share, options.names or names())
    tally.tried = len(chosen)
    for session, _, found in run(chosen):
        for it in faults(session, found):
            tally.fail(f"{session.name}: {it}")
    return tally.status("sessions of gdb", ", each as it is written")
