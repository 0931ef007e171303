"""Test programs of cargo: the words of a run of one test, and the tests that a program of libtest has."""
import os
import re
import subprocess

HERE = os.path.dirname(os.path.realpath(__file__))
# One test, whatever else its name is a part of. Its output isn't lost if the run ends with a deadlock.
OF_TEST = ["--exact", "--nocapture", "--include-ignored", "--test-threads=1"]
# How a list of libtest ends.
END_OF_LIST = re.compile(r"^\d+ tests?, \d+ benchmarks?\n\Z", re.M)


def lines_of(name):
    """Returns the words that a variable of the environment has, each on a line."""
    return [it for it in os.environ.get(name, "").split("\n") if it]


def called(program, words, options):
    """Runs a program by guest/rust/run, with these options of the run and without input: returns what came of it."""
    how = {"stdin": subprocess.DEVNULL, "stdout": subprocess.PIPE, "encoding": "utf-8", "errors": "replace"}
    return subprocess.run([f"{HERE}/run", program, *words], env={**os.environ, "DTHREADS_CARGO_RUN": "\n".join(options)}, **how)


def listed(program, words=(), options=()):
    """Runs a program so that it lists the tests that the words choose: returns what came of it."""
    return called(program, [*words, "--list"], options)


def tests_in(text):
    """Returns the names of the tests in a list of libtest, or None if it is no such list."""
    if not END_OF_LIST.search(text):
        return None
    return [line[:-len(": test")] for line in text.splitlines() if line.endswith(": test")]
