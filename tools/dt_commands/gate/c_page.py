"""The examples of the pages docs/C.md, docs/CLEAN-RUNS.md, docs/EXPLORING.md and, if guest/build-libgomp was done, docs/OPENMP.md.

The commands are the lines of a page's blocks that begin with `$ `. They run in a folder of their own, as if at the top of the
repository, which has a file of each block of C that begins with its name as a comment. DTHREADS names the program to run the guests with,
or else ./dthreads.
"""
import os
import re
import subprocess
import sys
import tempfile

from dt_commands import guest_runs, guest_tests
from dt_commands.progress import Progress
from dt_commands.repository import TOP
from dt_commands.texts import first_difference, read_text, write_file

PAGES = ("docs/C.md", "docs/CLEAN-RUNS.md", "docs/EXPLORING.md", "docs/OPENMP.md")
# What a page's commands need besides.
NEEDS = {"docs/OPENMP.md": ["-fopenmp"]}


def shown_in(text):
    """Returns the lines of a page's blocks from the first command of each on."""
    shown, is_inside, has_begun = [], False, False
    for line in text.splitlines():
        if line.startswith("```"):
            is_inside, has_begun = not is_inside, False
        elif is_inside:
            has_begun = has_begun or line.startswith("$ ")
            shown += [line] if has_begun else []
    return shown


def files_in(text):
    """Returns the files that a page has: of each its name and its text."""
    return re.findall(r"^```c\n(/\* (\S+) \*/\n.*?)^```$", text, re.M | re.S)


def printed(text, room, progress):
    """Runs the commands of a page in a folder, and returns their lines, each with what was printed below it."""
    for contents, name in files_in(text):
        write_file(f"{room}/{name}", contents)
    got, environment = [], {**os.environ, "DTHREADS": guest_runs.program()}
    for line in progress.each([it for it in shown_in(text) if it.startswith("$ ")]):
        how = {"stdin": subprocess.DEVNULL, "stdout": subprocess.PIPE, "stderr": subprocess.STDOUT}
        ran = subprocess.run(["bash", "-c", line[2:]], cwd=room, env=environment, errors="replace", **how)
        got += [line, *ran.stdout.splitlines()]
    return got


def ran(page, text):
    """Runs the commands of a page in a folder of their own, and returns their lines, each with what was printed below it."""
    count = sum(it.startswith("$ ") for it in shown_in(text))
    with tempfile.TemporaryDirectory() as room, Progress(f"commands of {page}", count) as progress:
        for name, target in (("guest", guest_runs.KIT), ("samples", f"{TOP}/samples"), ("dthreads", guest_runs.program())):
            os.symlink(target, f"{room}/{name}")
        return printed(text, room, progress)


def is_as_told(page):
    """Returns whether the commands of a page print what the page says. If not, prints where that begins."""
    text = read_text(f"{TOP}/{page}")
    wanted, got = shown_in(text), ran(page, text)
    count = sum(it.startswith("$ ") for it in wanted)
    if got != wanted:
        print(first_difference("\n".join(got).encode(), "\n".join(wanted).encode()), f"{page} says something else", sep="\n", file=sys.stderr)
        return False
    print(f"{count} commands of {page}: what the page says")
    return True


def test(options):
    """Runs each command of the examples in the pages on C, and compares what is printed with the lines below it."""
    lacking = {page: guest_tests.lacking(NEEDS.get(page, [])) for page in PAGES}
    for page, what in lacking.items():
        if what:
            print(f"{page}: left out, {what} wasn't done")
    return 0 if all([is_as_told(it) for it in PAGES if not lacking[it]]) else 1
