"""The command dthreads: debugs the program that gdb has loaded."""
import os
import shlex
import shutil

import gdb

from session import HERE, Words, fail, read, without

GUEST = os.path.dirname(HERE)


def program():
    """Returns the program that runs others: the one that DTHREADS names, the one beside the kit, or the one on the PATH."""
    beside = os.path.join(os.path.dirname(GUEST), "dthreads")
    found = os.environ.get("DTHREADS") or (beside if os.access(beside, os.X_OK) else shutil.which("dthreads"))
    return found or fail("there is no program dthreads: DTHREADS names it")


class Dthreads(Words):
    """Debug the program that gdb has loaded: dthreads [OPTIONS].
The options are those of `dthreads debug`. The quantum is that of guest/dthreads-exec if none is given; `--quantum none` debugs without
one."""

    def do(self, text):
        file, words = gdb.current_progspace().filename, shlex.split(text)
        if not file:
            fail("no program is loaded: `file PROGRAM`")
        if not any(it == "--quantum" or it.startswith("--quantum=") for it in words):
            words += ["--quantum", read(f"{GUEST}/quantum").strip()]
        elif "none" in words:
            words = without(words, "--quantum")
        command = " ".join(map(shlex.quote, [program(), "debug", file, *words]))
        gdb.execute(f"target extended-remote | {command}")
