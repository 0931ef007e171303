"""Sessions of gdb's machine interface, as editors hold them: the files guest/tests/gdb/NAME.mi.

A session begins with the setup commands of samples/debugging/launch.json, each of which must be done: for the program of the line
`program:`, and with the kit and the `dthreads` of this checkout. Then come commands, each behind `> `, and below each its result and, if the
program ran, how it stopped; other records don't count. Lines are as in `tools/dt test gdb`.

It needs Debian's gdb-multiarch and the packages that guest/packages lists. DTHREADS names the program that debugs, or else ./dthreads.
"""
import json
import os
import re
import subprocess
import tempfile
import threading

from dt_commands import gdb_sessions, gdb_transcripts, guest_runs, packages
from dt_commands.repository import TOP
from dt_commands.texts import read_text, write_file

FOLDER, LAUNCH = gdb_transcripts.FOLDER, f"{TOP}/samples/debugging/launch.json"
INSTALLED, SOURCES = "/usr/share/dthreads/guest", f"{TOP}/samples/c"
SIGN, PROMPT, SECONDS = "> ", "(gdb)", 60
# The records that are compared, and those behind which a stop comes.
SHOWN, RUNNING, STOPPED = re.compile(r"\^|\*stopped"), "^running", "*stopped"
GENERAL = [(r"0x[0-9a-f]{5,8}\b", "{hex}"), (r'(?<=fullname=")[^"]*', "{*}"), (r'(?<=details=")[^"]*', "{*}")]


def arguments(parser):
    parser.add_argument("names", nargs="*", metavar="NAME", help="the sessions (default: all)")


def names():
    return sorted(it[: -len(".mi")] for it in os.listdir(FOLDER) if it.endswith(".mi"))


class Session:
    """A session: the words of its program, and its commands, each with the lines that must come."""

    def __init__(self, name):
        self.name, self.text, self.commands, self.program = name, read_text(f"{FOLDER}/{name}.mi"), [], []
        for line in self.text.splitlines():
            if line.startswith("program: "):
                self.program = line.split()[1:]
            elif line.startswith(SIGN):
                self.commands.append((line[len(SIGN) :], []))
            elif self.commands and line.strip():
                self.commands[-1][1].append(line)


def setup(room):
    """Returns the editor's own commands, for the program in a folder."""
    told = json.loads(read_text(LAUNCH))["configurations"][0]
    first = [it["text"].replace("${workspaceFolder}", room).replace(INSTALLED, guest_runs.KIT) for it in told["customLaunchSetupCommands"]]
    return ["-gdb-set mi-async on", *first], f"-{told['launchCompleteCommand']}"


class Editor:
    """A gdb that is spoken to as editors do."""

    def __init__(self, room):
        os.symlink(guest_runs.program(), f"{room}/dthreads")
        environment = {**os.environ, "PATH": f"{room}:{os.environ['PATH']}", "LC_ALL": "C"}
        how = {"stdin": subprocess.PIPE, "stdout": subprocess.PIPE, "stderr": subprocess.STDOUT, "text": True, "errors": "replace"}
        self.gdb = subprocess.Popen(["gdb-multiarch", "-q", "-nx", "-i=mi"], cwd=room, env=environment, start_new_session=True, **how)

    def say(self, command):
        """Gives a command, and returns its records."""
        guard = threading.Timer(SECONDS, self.gdb.kill)
        guard.start()
        self.gdb.stdin.write(f"{command}\n")
        self.gdb.stdin.flush()
        found = self.records()
        guard.cancel()
        return found

    def records(self):
        """Returns the records up to the result, and to the stop if the program runs."""
        found = []
        for line in self.gdb.stdout:
            line = line.rstrip()
            if SHOWN.match(line):
                found.append(line)
            has_result = any(it.startswith("^") for it in found)
            is_running = RUNNING in found and not any(it.startswith(STOPPED) for it in found)
            if has_result and not is_running and (line == PROMPT or line.startswith((STOPPED, "^exit")) or RUNNING not in found):
                return found
        return [*found, "(gdb has ended)"]

    def end(self):
        self.gdb.stdin.close()
        self.gdb.stdout.close()
        self.gdb.wait()


def held(session, room):
    """Holds a session. Yields each command with its records."""
    said = guest_runs.compiled(session.program, f"{room}/program.elf", SOURCES)
    if said is not None:
        raise SystemExit(f"{session.name}: its program doesn't build:\n{said}")
    first, start = setup(room)
    editor = Editor(room)
    try:
        for it in first:
            records = editor.say(it)
            if "^done" not in records:
                yield it, records
        for command, _ in session.commands:
            yield command, editor.say(start if command == "(start)" else command)
    finally:
        editor.end()


def faults(session, found):
    """Yields what is wrong with a session that was held."""
    wanted = [*session.commands]
    if len(found) != len(wanted):
        yield f"{found[0][0]}: not done: {found[0][1]}"
        return
    for (command, lines), (_, records) in zip(wanted, found):
        differs = gdb_transcripts.difference(records, lines)
        if differs:
            yield f"{command}: {differs}; in all:\n" + "\n".join(f"    {it}" for it in records)
            return


def run(chosen):
    packages.want("sessions of editors need the packages", gdb_sessions.PACKAGES)
    for name in chosen:
        session = Session(name)
        with tempfile.TemporaryDirectory() as room:
            yield session, list(held(session, room))


def write(options):
    """Holds the sessions of guest/tests/gdb/NAME.mi, and writes what gdb answers into sessions that differ."""
    for session, found in run(options.names or names()):
        if len(found) != len(session.commands):
            raise SystemExit(f"{session.name}: {next(faults(session, found))}")
        parts = [session.text[: session.text.index(f"\n{SIGN}") + 1]]
        for (command, lines), (_, records) in zip(session.commands, found):
            fresh = records
            for pattern, mark in GENERAL:
                fresh = [re.sub(pattern, mark, it) for it in fresh]
            kept = lines if not gdb_transcripts.difference(records, lines) and lines != ["..."] else fresh
            parts.append("\n".join([SIGN + command, *kept]) + "\n")
        if "".join(parts) != session.text:
            write_file(f"{FOLDER}/{session.name}.mi", "".join(parts))
            print(f"{session.name}: written")
    return 0


def test(options):
    """Holds the sessions of editors, guest/tests/gdb/NAME.mi, and compares what gdb answers with what each says."""
    tally, chosen = guest_runs.Tally(), options.names or names()
    tally.tried = len(chosen)
    for session, found in run(chosen):
        for it in faults(session, found):
            tally.fail(f"{session.name}: {it}")
    return tally.status("sessions of editors", ", each as it is written")
