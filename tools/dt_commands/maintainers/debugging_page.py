"""The transcripts of docs/DEBUGGING.md: each is a session of gdb, from guest/tests/gdb. `tools/dt test gdb` runs the sessions. And the files that
docs/EDITORS.md shows, which `tools/dt test editors` uses."""
import os
import re
import shlex

from dt_commands import gdb_transcripts
from dt_commands.repository import TOP
from dt_commands.texts import read_text

PAGE, EDITORS = "docs/DEBUGGING.md", "docs/EDITORS.md"
FILE = re.compile(r"(<!-- generated: file (\S+) -->\n).*?(<!-- end of generated: file \2 -->)", re.S)
PART = re.compile(r"(<!-- generated: session (\S+) -->\n).*?(<!-- end of generated: session \2 -->)", re.S)


def shown(session):
    """Returns a session as the page shows it: the commands that build and start it, and all that was given and printed."""
    source, *words = session.words("program")
    program = os.path.basename(source).rpartition(".")[0] + ".elf"
    options = "".join(f" {shlex.quote(it)}" for it in session.words("options"))
    lines = [f"$ guest/dthreads-cc {shlex.join(words)} -o {program} {source}", f"$ guest/dthreads-gdb {program}{options}"]
    for command, wanted in session.commands:
        lines += [gdb_transcripts.PROMPT + command, *wanted]
    return "```\n" + "\n".join(lines) + "\n```\n"


def page():
    """Returns the page with its transcripts as the sessions have them."""
    return PART.sub(lambda found: found[1] + shown(gdb_transcripts.read(found[2])) + found[3], read_text(f"{TOP}/{PAGE}"))


def editors_page():
    """Returns the page of editors with its files as they are."""
    shown_file = lambda name: f"```{os.path.splitext(name)[1][1:]}\n{read_text(f'{TOP}/{name}')}```\n"
    return FILE.sub(lambda found: found[1] + shown_file(found[2]) + found[3], read_text(f"{TOP}/{EDITORS}"))
