"""The Rattle toolchain: whether it is there, which it is, and how its commands are started so that none outlives this process.

The inner functions by which mutants are checked are in kit.py. That file is a part of each sum in mutants.lock, as it decides what a
check is; this one is not.
"""
import os
import shutil
import signal
import subprocess
import sys

PIPE, STDOUT = subprocess.PIPE, subprocess.STDOUT
LACKS = "the command rt of the Rattle toolchain is not on the PATH"


def path():
    """Returns the path of the command rt, or None."""
    found = shutil.which("rt")
    return found and os.path.realpath(found)


def version():
    """Returns what `rt version` prints, or None if there is no rt."""
    if not path():
        return None
    ran = subprocess.run(["rt", "version"], stdout=subprocess.PIPE, universal_newlines=True)
    return ran.stdout.strip() if ran.returncode == 0 else None


# What a started command runs first: it asks to be ended with its parent, however that ends, and becomes the command.
BEGIN = """
import ctypes, os, signal, sys
ctypes.CDLL(None).prctl(1, signal.SIGTERM)
for it in (signal.SIGPIPE, signal.SIGXFSZ):
    signal.signal(it, signal.SIG_DFL)
if os.getppid() == int(sys.argv[1]):
    os.execvp(sys.argv[2], sys.argv[2:])
"""


def start(words, **how):
    """Starts a command that ends when the thread that calls this ends, and reads no input unless `how` gives it some."""
    how.setdefault("stdin", subprocess.DEVNULL)
    return subprocess.Popen([sys.executable, "-ISc", BEGIN, str(os.getpid()), *words], **how)


def end_at_signals(say):
    """Has this process, and with it all that it started, end at once at an interrupt, and say so."""

    def stop(number, _):
        say()
        os._exit(128 + number)

    for it in (signal.SIGINT, signal.SIGTERM, signal.SIGHUP):
        signal.signal(it, stop)
