"""Runs of guest programs with numbers: what the library varies is a function of the run's number.

A program is linked with the entry of guest/tests/numbered.S, which loads the number and how many choices the library may make from its
own code, and a copy with both is run. Or it is run by words of one's own, in which FILE, NUMBER and CHOICES are replaced.
"""
import os
import re
import shlex
import struct
import subprocess

from dt_commands import guest_runs
from dt_commands.texts import contents, write_file

# What the number and the choices follow in the entry: two words.
MARK = b"number, choices:"
ENTRY = (f"{guest_runs.KIT}/tests/numbered.S", "-Wl,-e,numbered")
SECONDS = 120
HELP = "the words of a run, with FILE, NUMBER and CHOICES for the program, the run's number and its choices (default: an entry of its own)"


def with_command(parser):
    """Gives a part its option to run the programs by words of its user."""
    parser.add_argument("--command", metavar="WORDS", help=HELP)


def numbered(image, number, choices):
    """Returns the bytes of a program with another number and other choices behind the mark of its entry."""
    at = image.index(MARK) + len(MARK)
    return image[:at] + struct.pack("<II", number, choices) + image[at + 8 :]


def words_of(command, file, number, choices):
    """Returns the words of a command, with what stands for a run replaced, also within a word."""
    named = {"FILE": file, "NUMBER": str(number), "CHOICES": str(choices)}
    return [re.sub("FILE|NUMBER|CHOICES", lambda found: named[found[0]], it) for it in shlex.split(command)]


class Numbered:
    """A program that is built once and run with numbers. Its words are those of dthreads-cc, in a folder; `after` are further ones of
    `run`. What the compiler said is `said` if the program isn't built, else None."""

    def __init__(self, words, file, folder, command=None, after=(), given=None):
        self.file, self.command, self.after, self.given = file, command, after, given or os.devnull
        self.said = guest_runs.compiled(["-O2", *words, *(() if command else ENTRY)], file, folder)

    def words(self, number, choices):
        """Returns the words of a run, for which a copy of the program is made if its entry has the number. With 0 the run has none."""
        if self.command and number:
            return words_of(self.command, self.file, number, choices)
        file = f"{self.file}.run" if number else self.file
        if number:
            write_file(file, numbered(contents(self.file), number, choices))
        return [guest_runs.program(), "run", file, "--workers", "1"]

    def run(self, number, choices=0):
        """Runs the program. Returns its status, and what it wrote; the status is None if it took too long."""
        try:
            with open(self.given, "rb") as given:
                how = {"stdin": given, "stdout": subprocess.PIPE, "stderr": subprocess.DEVNULL, "timeout": SECONDS}
                ran = subprocess.run([*self.words(number, choices), *self.after], **how)
        except subprocess.TimeoutExpired:
            return None, b""
        return ran.returncode, ran.stdout
