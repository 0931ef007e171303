"""The pages of docs/course: programs with one bug each. What their commands print is written by this, and compared as of the other pages on C.

It needs the packages of programs in C and gdb-multiarch. DTHREADS names the program to run the guests with, or else ./dthreads.
"""
import glob
import os

from dt_commands import c_page, guest_runs
from dt_commands.repository import TOP
from dt_commands.texts import read_text, write_file


def arguments(parser):
    guest_runs.with_share(parser)


def pages(options):
    """Returns the pages that have programs, of this share."""
    every = sorted(os.path.relpath(it, TOP) for it in glob.glob(f"{TOP}/docs/course/[0-9]*.md"))
    return guest_runs.share(options.share, every)


def rewritten(text, got):
    """Returns a page with these lines, commands and what each printed, in its blocks."""
    lines, is_inside, has_begun, rest = [], False, False, list(got)
    for line in text.splitlines():
        if line.startswith("```"):
            is_inside, has_begun = not is_inside, False
        if is_inside and line.startswith("$ "):
            has_begun, end = True, next((at for at, it in enumerate(rest[1:], 1) if it.startswith("$ ")), len(rest))
            lines, rest = lines + rest[:end], rest[end:]
        elif not has_begun:
            lines.append(line)
    return "\n".join(lines) + "\n"


def write(options):
    """Writes what the commands of the pages in docs/course print."""
    for page in pages(options):
        text = read_text(f"{TOP}/{page}")
        write_file(f"{TOP}/{page}", rewritten(text, c_page.ran(page, text)))
    return 0


def test(options):
    """Runs each command of the pages in docs/course, and compares what is printed with the lines below it."""
    return 0 if all([c_page.is_as_told(it) for it in pages(options)]) else 1
