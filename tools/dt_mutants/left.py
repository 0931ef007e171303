"""What rt ci left in the crates' out/: whether its libraries are of the sources as they are.

A second rt ci in a checkout puts back the libraries that an earlier one left, and libraries may be copied from another checkout. So a
library counts if it came into its place after its sources changed last, or if the toolchain kept the very same one as proved of them.
"""
import json
import os

from dt_commands import kit
from dt_commands.repository import TOP, below
from dt_mutants.lock import PARTS


def serves(crate):
    """Returns whether the crate may be checked over the libraries below it, as rt ci left them."""
    crates = crate.below()
    return kit.has_foreign_libraries(crate) and (all(came_later(it.name, it.rlib) for it in crates) or are_kept(crates))


def last_change(folder):
    """Returns when a file of a folder, or what files are there, changed last, in nanoseconds; 0 if there is no such folder."""
    times = [os.lstat(f"{at}/{it}").st_ctime_ns for at, _, names in os.walk(folder) for it in (".", *names)]
    return max(times, default=0)


def came_later(name, rlib):
    """Returns whether a library came into its place after all that it is made from. The time is that of its folder, since its files may
    be those of other checkouts too, by hard links."""
    sources = [f"{TOP}/crates/{it}/{part}" for it in below(name) for part in PARTS]
    return os.stat(rlib).st_mtime_ns > max(map(last_change, sources))


def are_kept(crates):
    """Returns whether the toolchain kept these libraries, which come each after those below it, as proved of their sources as they are.
    What it keeps is read by inner functions of its own; if they are others, the answer is no."""
    rt = kit.loaded()
    try:
        rt.Crate.allowed = rt.handles_of(TOP)
        kept = rt.Kept(crates)
        return all(is_kept(rt, kept, it) for it in crates)
    except (AttributeError, KeyError, OSError, TypeError, ValueError):
        return False


def is_kept(rt, kept, crate):
    # (it takes account of the library as it stands, for the sums of those above)
    kept.is_built(crate)
    with open(f"{kept.place(crate, False, kept.key(crate))}/made.json", encoding="utf-8") as it:
        files = json.load(it)["files"]
    return files == [[it, rt.rtlib.sum_of(f"{crate.folder}/out/{it}")] for it in kept.made(crate, False)]
