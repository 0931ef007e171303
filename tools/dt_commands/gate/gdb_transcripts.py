"""The transcripts that sessions of gdb are: how they are read, compared and written. `tools/dt test gdb --help` has their form."""
import os
import re
import shlex
import signal

from dt_commands import guest_runs
from dt_commands.repository import TOP
from dt_commands.texts import read_text

FOLDER = f"{guest_runs.KIT}/tests/gdb"
PROMPT, INTERRUPT, KILL, ANY = "(gdb) ", "^C", "^KILL", "..."
HEAD = ("program", "folder", "options", "arguments", "status", "seconds")
PATTERNS = {"{hex}": "0x[0-9a-f]+", "{n}": "[0-9]+", "{*}": ".*"}
# What is taken for the last line of a gdb that prints no prompt.
SILENT = "(no prompt came)"
# How much of what a command printed is shown if it is wrong.
SHOWN_LINES = 30
# What differs with another compiler, in a session that is written; and how the names of those begin that a page shows.
GENERAL = [
    (r"0x[0-9a-f]{5,8}\b", "{hex}"), (r"\b[0-9]+(?= instructions into)", "{n}"), (r"(?<=; step )[0-9]+", "{n}"),
    (r"\b(turn [0-9]+)\+[0-9]+", r"\1+{n}"), (r"(?<=pc=)[0-9a-f]{8}", "{*}"), (r"(?<=value=)(?!0{8})[0-9a-f]{8}", "{*}"),
    (r'("guest [0-9]+" )\([^()]*\)', r"\1({*})"), (r"Target Id +Frame", "Target Id{*}Frame"),
    (r"^([* ] [0-9]+ .*\(\{\*\}\)) +", r"\1{*}"),
]
OF_PAGE = "page_"


class Session:
    """A session's head, and its commands, each with the lines that gdb has to print."""

    def __init__(self, name, text):
        self.name, self.head, self.commands = name, {}, []
        for line in text.splitlines():
            word, colon, rest = line.partition(":")
            if line.startswith(PROMPT):
                self.commands.append((line[len(PROMPT) :], []))
            elif self.commands and line.strip():
                self.commands[-1][1].append(line.rstrip())
            elif not self.commands and line.strip() and not line.startswith("#"):
                if word not in HEAD or not colon:
                    raise SystemExit(f"{name}: what is {line!r}?")
                self.head[word] = rest.strip()
        if "program" not in self.head or not self.commands:
            raise SystemExit(f"{name}: a session has a program and commands")

    @property
    def folder(self):
        return os.path.join(TOP, self.head["folder"]) if "folder" in self.head else FOLDER

    def words(self, which):
        return shlex.split(self.head.get(which, ""))


def text_of(name):
    return read_text(f"{FOLDER}/{name}.session")


def read(name):
    """Returns the session of a name."""
    return Session(name, text_of(name))


def names():
    """Returns the names of all sessions, in order."""
    return sorted(it[: -len(".session")] for it in os.listdir(FOLDER) if it.endswith(".session"))


def is_line(got, wanted):
    """Whether a line of gdb is what a line of the session says."""
    parts = re.split("|".join(re.escape(it) for it in PATTERNS), wanted)
    marks = re.findall("|".join(re.escape(it) for it in PATTERNS), wanted)
    pattern = "".join(re.escape(part) + PATTERNS.get(mark, "") for part, mark in zip(parts, [*marks, ""]))
    return re.fullmatch(pattern, got) is not None


def begins_well(got, wanted):
    """Returns how many of the wanted lines gdb's lines answer, from the first on, if they are all compared one by one."""
    count = 0
    for one, other in zip(got, wanted):
        if other == ANY or not is_line(one, other):
            break
        count += 1
    return count


def agree(got, wanted):
    """Whether gdb's lines are the wanted ones."""
    if not wanted:
        return not got
    if wanted[0] == ANY:
        return any(agree(got[at:], wanted[1:]) for at in range(len(got) + 1))
    return bool(got) and is_line(got[0], wanted[0]) and agree(got[1:], wanted[1:])


def difference(got, wanted):
    """Returns in words where gdb's lines leave the wanted ones, or None if they don't."""
    if agree(got, wanted):
        return None
    at = begins_well(got, wanted)
    shown = [repr((it[at : at + 1] or ["(no more)"])[0]) for it in (got, wanted)]
    return f"printed {shown[0]} and not {shown[1]}"


def wanted_status(session):
    is_killed = any(KILL in wanted[:1] for _, wanted in session.commands)
    return -signal.SIGKILL if is_killed else int(session.head.get("status", 0))


def faults(session, found):
    """Yields what is wrong with a session that was run."""
    if isinstance(found, str):
        yield found
        return
    got, status, is_left = found
    for (command, wanted), (_, lines) in zip(session.commands, got):
        differs = difference(lines, wanted)
        if differs:
            yield f"{command}: {differs}; it printed in all:\n" + "\n".join(f"    {it}" for it in lines[:SHOWN_LINES])
            # (what comes behind it follows from it)
            break
    if status != wanted_status(session):
        yield f"gdb ended with status {status}, wanted {wanted_status(session)}"
    if is_left:
        yield "dthreads debug didn't end with gdb"


def general(line):
    """Returns a line of gdb with patterns in place of what another compiler would change: addresses, steps and instructions."""
    for pattern, mark in GENERAL:
        line = re.sub(pattern, mark, line)
    return line


def rewritten(text, session, got):
    """Returns a session's text with what gdb printed below each command whose lines it doesn't answer. A session for a page, whose name
    begins so, has the lines as they are."""
    is_of_page = session.name.startswith(OF_PAGE)
    head = text[: text.index(f"\n{PROMPT}") + 1]
    parts = []
    for (command, wanted), (_, lines) in zip(session.commands, got):
        fresh = lines if is_of_page else [general(it) for it in lines]
        kept = wanted if not difference(lines, wanted) and wanted != [ANY] else fresh
        parts.append("\n".join([PROMPT + command, *kept]) + "\n")
    return head + "".join(parts)
