"""The example programs of the manual pages on threads.

The manual pages are those of the Debian package manpages-dev, in the folder that MANUAL names, or else /usr/share/man/man3. The examples
are compiled unchanged; guest/tests/manual has a list of them and the expected outputs. DTHREADS names the program to run them with, or
else ./dthreads.
"""
import gzip
import os
import re

from dt_commands import guest_runs
from dt_commands.texts import contents, rows_of, write_file

WANTED = f"{guest_runs.KIT}/tests/manual"
PAGES = os.environ.get("MANUAL") or "/usr/share/man/man3"
# What the characters that a page escapes are in a program.
ESCAPED = [(r"\e", "\\"), (r"\-", "-"), (r"\(aq", "'"), (r"\[aq]", "'"), (r"\(dq", '"'), (r"\&", ""), (r"\(ti", "~"), (r"\(ha", "^")]


def examples_of(lines):
    """Yields the examples of a page, from the last heading `Program source` on."""
    starts = [at for at, line in enumerate(lines) if line.startswith(".SS Program source")]
    text = None
    for line in lines[starts[-1] if starts else 0 :]:
        if line.startswith(".EX"):
            text = []
        elif line.startswith(".EE") and text is not None:
            yield "".join(text)
            text = None
        elif text is not None and not re.match(r"\.(\\\"|in|RS|RE|PP)", line):
            text.append(line)


def program_in(lines):
    """Returns the first example of a page that is a whole program."""
    text = next(it for it in examples_of(lines) if "#include" in it)
    for escaped, plain in ESCAPED:
        text = text.replace(escaped, plain)
    return re.sub(r"\\f[BIRP]", "", text)


def program_of(page):
    """Returns the example program of a manual page."""
    with gzip.open(f"{PAGES}/{page}.3.gz", "rt", encoding="utf-8") as it:
        return program_in(it.readlines())


def test_example(tally, room, page, name, *words):
    source, elf = f"{room}/{page}.c", f"{room}/program.elf"
    write_file(source, program_of(page))
    said = guest_runs.compiled(["-O2", "-w", *(f"--argument={it}" for it in words), source], elf)
    if said is not None:
        tally.fail(f"{said}{page}: doesn't build")
        return
    guest = guest_runs.Guest([guest_runs.program(), "run", elf], is_merged=True)
    guest_runs.agree(tally, name, guest, room, contents(f"{WANTED}/{name}.out"))


def test(options):
    """Compiles the examples on threads of the manual pages, and runs each with 1, 2, 4 and 64 workers: expected output, and one trace."""
    if not os.path.exists(f"{PAGES}/pthread_create.3.gz"):
        raise SystemExit("the package manpages-dev is missing")
    does, well = lambda tally, room, row: test_example(tally, room, *row), ", each with 1, 2, 4 and 64 workers: the expected output"
    return guest_runs.all_tried("runs of examples", rows_of(f"{WANTED}/list"), does, well, lambda it: it[1])
