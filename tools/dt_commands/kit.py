"""The functions of the toolchain's own scripts that the project's tools call, in one place.

None of them is a published interface: they are inner functions of `rt` and of the rtlib.py beside it, and a later toolchain may change
them. `loaded()` stops with a plain sentence if one of them is missing. Everything else that the tools ask of the toolchain goes through
the ordinary commands.
"""
import functools
import importlib.machinery
import importlib.util
import os
import shutil
import sys
import threading

from dt_commands.repository import TOP

# What the tools call: of rt, and of rtlib.
OF_RT = ("checked", "must_fail", "unread")
OF_RTLIB = ("Crate", "guarded", "PARTS")

# What a try of one edit comes to.
REFUSED, LIMIT, BAD, UNSURE, MISSED = "refused", "limit", "bad", "not tried", "not refused"
# What gives a check more room than it has by itself, which is half of this number of terms; there is no such word for steps and stack.
MORE_ROOM = ("--arena-nodes", "1073741824")
# How the files of kept work end that hold what was checked.
CHECKED = ".oantt"

# The names of these kinds in a toolchain whose `must_fail` answers a kind. In others it answers whether the edit was refused.
KINDS = {"REFUSED": REFUSED, "AT_LIMIT": LIMIT, "BAD": BAD, "UNSURE": UNSURE, "MISSED": MISSED}

# What the last check of this thread printed, and its status.
LAST = threading.local()


def script():
    """Returns the file of the command rt."""
    found = shutil.which("rt")
    if not found:
        sys.exit("tools/dt: the command rt of the Rattle toolchain is not on the PATH")
    return os.path.realpath(found)


def version():
    """Returns the line that `rt version` prints."""
    with open(f"{os.path.dirname(os.path.dirname(script()))}/KIT-ID", encoding="utf-8") as lines:
        return lines.read().strip()


@functools.lru_cache(maxsize=None)
def loaded():
    """Returns rt as a module, of which nothing but the names above is used."""
    loader = importlib.machinery.SourceFileLoader("rt_command", script())
    rt = importlib.util.module_from_spec(importlib.util.spec_from_loader("rt_command", loader))
    loader.exec_module(rt)
    lacking = [it for it in OF_RT if not hasattr(rt, it)] + [it for it in OF_RTLIB if not hasattr(rt.rtlib, it)]
    if lacking:
        sys.exit(f"tools/dt: this toolchain's rt has no {', '.join(lacking)}: tools/dt_commands/kit.py wants a change")
    rt.checked = noted(rt.checked)
    return rt


def noted(checked):
    """Has a check also leave what it printed, and its status, in LAST."""

    def call(*given):
        ran = checked(*given)
        LAST.said, LAST.status = ran.stdout, ran.returncode
        return ran

    return call


def guard():
    """Has each check end when this process ends, however it ends. The main thread calls it, before others begin."""
    loaded().rtlib.guarded()


def crate(name, top=TOP, known=None):
    """Returns the toolchain's own view of a crate, which prints nothing."""
    rtlib = loaded().rtlib
    known = {} if known is None else known
    folder = f"{top}/crates/{name}"
    made = known.get(folder) or rtlib.Crate(folder, top, known)
    known[folder] = made
    made.out = open(os.devnull, "w")
    return made


def is_ready(made):
    """Returns whether the libraries below the crate are built of the files as they are, and a check of it left its work."""
    return all(it.is_built() for it in made.below()) and made.has_kept()


def has_foreign_libraries(made):
    """Returns whether each library below the crate is there, and none is one that `rt check` built: `rt ci` leaves them so."""
    return all(os.path.isfile(f"{it.rlib}/format") and not os.path.exists(f"{os.path.dirname(it.rlib)}/stamp") for it in made.below())


def check(made, texts, kept, jobs=1):
    """Checks a copy of the crate with these texts in place of its own, over the kept work in a folder, and returns output and status."""
    ran = loaded().checked(made, texts, ["--jobs", str(jobs)], kept)
    return ran.stdout, ran.returncode


def try_alone(made, file, kept, more=()):
    """Returns what `rt must-fail` makes of one edit: its kind, what it says of it, and what its check printed. `more` are further words
    for the check."""
    LAST.said, LAST.status = "", None
    answer, text = loaded().must_fail(made, file, ["--jobs", "1", *more], kept)
    text = text.partition(": ")[2] or text
    return kind_of(loaded(), answer, text), text, LAST.said


def kind_of(rt, answer, text):
    """Returns the kind of a try that `must_fail` answered so, with this text."""
    if answer is True:
        return REFUSED
    if answer is False:
        return MISSED if text.startswith("NOT REFUSED") else BAD
    return next((kind for name, kind in KINDS.items() if getattr(rt, name, None) == answer), UNSURE)


def linked(folder, to):
    """Makes a copy of kept work. Each checked module is the same file, by a hard link, since no check writes into one."""
    shutil.copytree(folder, to, copy_function=lambda file, copy: (os.link if file.endswith(CHECKED) else shutil.copy2)(file, copy))


def listing(folder):
    """Returns of each file of a folder which it is, its size and when it was written last, by its path."""
    files = (f"{at}/{name}" for at, _, names in os.walk(folder) for name in names)
    return {os.path.relpath(it, folder): stat_of(it) for it in files}


def stat_of(file):
    found = os.lstat(file)
    return found.st_ino, found.st_size, found.st_mtime_ns


def is_unread(line, texts):
    """Returns whether a line of a check's output says that a text of the crate or of these couldn't be read."""
    return loaded().unread(line, texts)
