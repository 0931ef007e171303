"""The run that gdb debugs, how commands look at it elsewhere, and the texts that they share."""
import os
import re
import shlex
import subprocess
import tempfile

import gdb

import elsewhere
import engine

HERE = os.path.dirname(os.path.realpath(__file__))


def fail(text):
    raise gdb.GdbError(text)


def read(path):
    try:
        with open(os.path.expanduser(path), encoding="utf-8", errors="replace") as file:
            return file.read()
    except OSError as why:
        fail(f"{path}: {why.strerror}")


def without(words, name):
    """Returns the words without an option and its value."""
    found, skips = [], False
    for it in words:
        if skips:
            skips = False
        elif it == name:
            skips = True
        elif not it.startswith(name + "="):
            found.append(it)
    return found


class Session:
    """The run that gdb debugs, by the command line to which it is connected; the engine beside it, and its list of findings."""

    def __init__(self, details):
        words = shlex.split(details.lstrip("| "))
        if "debug" not in words or not details.startswith("|"):
            fail("gdb is not connected to a command line with `dthreads debug`")
        at = words.index("debug")
        self.details, self.program, self.words = details, words[:at], without(words[at + 1 :], "--turn")
        self.second, self.findings, self.others = None, None, []

    def engine(self):
        """Returns a second `dthreads debug` of the same run."""
        if self.second is None:
            self.second = engine.Engine([*self.program, "debug", *self.words])
        return self.second

    def with_options(self, options):
        """Returns the words of a run with these options in place of its own; one with the value none is left out."""
        words = list(self.words)
        for name, value in options:
            words = without(words, name) + ([name, value] if value != "none" else [])
        return words

    def end(self):
        if self.second is not None:
            self.second.end()


# The session, if there is one.
SESSIONS = []


def session():
    """Returns the session with the run that gdb is connected to."""
    connection = gdb.selected_inferior().connection
    if connection is None or connection.details is None:
        fail("gdb is not connected to `dthreads debug`")
    if not SESSIONS or SESSIONS[0].details != connection.details:
        end_session()
        SESSIONS.append(Session(connection.details))
    return SESSIONS[0]


def end_session(*_):
    for it in SESSIONS:
        it.end()
    SESSIONS.clear()


class Words(gdb.Command):
    """A command that `do(text)` does; what goes wrong is told in one line."""

    def __init__(self, name):
        super().__init__(name, gdb.COMMAND_RUNNING)

    def invoke(self, text, from_tty):
        self.dont_repeat()
        try:
            self.do(text)
        except engine.Failure as why:
            end_session()
            fail(str(why))
        except KeyboardInterrupt:
            # (the engine is in the middle of an answer)
            end_session()
            fail("interrupted")


# Looking at gdb's own position, and at others.


def asked(text):
    """Returns what a command of gdb prints."""
    return gdb.execute(text, to_string=True)


def present():
    """Returns gdb's position."""
    found = engine.position_of(asked("monitor where"))
    return found or fail("the run has no position: it has not begun, or has ended")


def selected_guest():
    thread = gdb.selected_thread()
    if thread is None or not thread.is_valid():
        fail("no thread is selected")
    return thread.ptid[1] - 1


def of_run(it, words, option):
    """Runs the program once more, and returns the text that it writes for an option."""
    with tempfile.TemporaryDirectory() as room:
        how = {"stdin": subprocess.DEVNULL, "stdout": subprocess.DEVNULL, "stderr": subprocess.PIPE, "universal_newlines": True}
        try:
            ran = subprocess.run([*it.program, "run", *words, option, f"{room}/text"], start_new_session=True, **how)
        except OSError as why:
            fail(f"{it.program[0]}: {why.strerror}")
        if not os.path.exists(f"{room}/text"):
            fail(f"dthreads run: {(ran.stderr.strip().splitlines() or ['no text for ' + option])[0]}")
        return read(f"{room}/text")


def places(words, wanted):
    """Returns pairs of positions of a run with these words, and of where guest threads are there, by another gdb."""
    command = [*session().program, "debug", *words]
    return elsewhere.places(os.readlink("/proc/self/exe"), gdb.current_progspace().filename, command, wanted)


# Texts.


def symbol_at(address):
    """Returns the symbol before an address and its distance, or None."""
    found = re.match(r"(\S+)(?: \+ (\d+))? in section", asked(f"info symbol {address:#x}"))
    return (found[1], int(found[2] or 0)) if found else None


def line_of(pc):
    """Returns file and line of an instruction, or None.

    Of several lines that begin at one instruction, the last is that of its code. gdb shows the last at which a statement begins.
    """
    found = gdb.find_pc_line(pc)
    if not (found.symtab and found.line):
        return None
    lines = [entry.line for entry in found.symtab.linetable() if found.pc <= entry.pc <= pc]
    return f"{found.symtab.filename}:{lines[-1] if lines else found.line}"


def place_of(pc):
    """Returns in words where an instruction is."""
    function, line = symbol_at(pc), line_of(pc)
    if not function:
        return f"{pc:#010x}"
    return f"{function[0]} at {line}" if line else f"{function[0]}+{function[1]}"


def time_of(turn, instruction):
    return f"turn {turn}" if instruction is None else f"turn {turn}+{instruction}"


def of_symbol(address):
    """Returns `symbol+offset` of an address, or the address alone."""
    found = symbol_at(address)
    return f"{found[0]}+{found[1]}" if found else f"{address:#010x}"


def typed(kind, data):
    """Returns bytes as gdb prints a value of this type."""
    try:
        return gdb.Value(data, kind).format_string(max_elements=8)
    except (gdb.error, ValueError):
        return data.hex(" ")


def place_and_type(text):
    """Returns the address, the length and the type of an expression."""
    try:
        value = gdb.parse_and_eval(text)
        kind, address = value.type, value.address
    except gdb.error as why:
        fail(str(why))
    if address is None:
        fail(f"{text} has no address: it is in a register or computed")
    return int(address.cast(gdb.lookup_type("unsigned int"))), kind.sizeof, kind
