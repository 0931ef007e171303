"""Tells which functions took longest to prove.

The toolchain writes a file into a crate's out/incremental as it ends with each part of a function's proof, so the time since the file
before it is what the part took. That holds for one check from nothing with one job: remove out/incremental of the crate, and call
`rt check --jobs 1` in its folder. With several jobs a time is the least that it can have been.

A line has the seconds, their share of the crate's, the crate and the function. The last line of a crate has its seconds by part: Lts is
what the toolchain makes of a function's steps and of what is known after each of them, and grows with the square of their number.
"""
import collections
import os
import re

from dt_commands.repository import TOP, crates

# What a function's files are called behind its path. A part of a name such as Kinds-2 is another file of that kind.
PART = re.compile(
    r"\.(Answers|Carried|Code|Given|Goals|Invariants|Key|Kinds|Layout|Lts|Met|Named|Proof|Reads|Statement|Symbol|TheLink|Tie)[-\d]*(\.\w+)*$"
)
# The longest pause that is still part of one check, in seconds.
PAUSE = 300


def arguments(parser):
    parser.add_argument("crates", nargs="*", metavar="CRATE", help="the crates (default: all that kept a check's work)")
    parser.add_argument("--lines", type=int, default=10, metavar="N", help="how many functions of each crate are listed (default: 10)")


def kept_in(folder):
    """Returns the files of a check's kept work in the order in which they were written: of each the time and the name without its end."""
    found = []
    for at, _, names in os.walk(folder):
        found += [(os.stat(f"{at}/{it}").st_mtime, it[: -len(".oantt")]) for it in names if it.endswith(".oantt")]
    return sorted(found)


def place_of(name):
    """Returns the function that a file belongs to and the part of its proof, or the file's module and no part."""
    library, _, path = name.partition("-proofs.")
    found = PART.search(path)
    return (path[: found.start()].replace(".", "::"), found[1]) if found else (library if not path else path, "")


def times_of(files):
    """Returns the seconds of each function, and those of each part, by the times at which files were written."""
    functions, parts = collections.Counter(), collections.Counter()
    for (before, _), (time, name) in zip(files, files[1:]):
        if time - before < PAUSE:
            function, part = place_of(name)
            functions[function] += time - before
            parts[part or "other"] += time - before
    return functions, parts


def shown(crate, functions, parts, count):
    """Returns the lines of a crate."""
    total = sum(functions.values())
    lines = [f"{time:7.1f} {100 * time / total:4.0f}%  {crate} {name}" for name, time in functions.most_common(count)]
    by_part = ", ".join(f"{name} {time:.0f}" for name, time in parts.most_common() if time >= 0.5)
    return [*lines, f"{total:7.1f}        {crate}: {by_part}"]


def measure(options):
    """Tells which functions took longest to prove."""
    lacking = []
    for crate in options.crates or crates():
        files = kept_in(f"{TOP}/crates/{crate}/out/incremental")
        if len(files) > 1:
            print(*shown(crate, *times_of(files), options.lines), sep="\n", flush=True)
        elif options.crates:
            lacking.append(crate)
    for crate in lacking:
        print(f"{crate}: no check of it kept its work")
    return 1 if lacking else 0
