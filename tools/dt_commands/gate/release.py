"""Makes the released program and the list of its sources anew, from the program that was built here.

`./dthreads --build` or `.ci/run` has to come before it, over the same sources. The release is
release/x86_64-linux/dthreads, the program without its symbols, and release/sources.sha256, the toolchain that built it and the
sha256 of each file that it is built from. `./dthreads` starts it if these are the files of the checkout.
"""
import hashlib
import os
import sys

from dt_commands import built_from, executable, toolchain
from dt_commands.repository import TOP
from dt_commands.texts import write_file

FILE, RECORD = "release/x86_64-linux/dthreads", "release/sources.sha256"
BUILT = f"{TOP}/crates/command/out/command"
# How the names of functions begin that the loops of the hart must have inline.
INLINE = "hart::near::"


def arguments(parser):
    parser.add_argument("--check", action="store_true", help="make nothing: fail if there is no release, if it is of these sources and this toolchain and another program than the one built here, or if the loop of that one calls an instruction")


def say(text):
    print(f"release: {text}", file=sys.stderr, flush=True)


def bytes_of(file):
    with open(file, "rb") as it:
        return it.read()


def sum_of(data):
    return hashlib.sha256(data).hexdigest()


def is_built(top=TOP):
    """Returns whether the program in out/ was built from the sources as they are: its record says so, or, if the gate built it, which
    leaves no record, no source has changed since."""
    program, record = f"{top}/crates/command/out/command", f"{top}/{built_from.OF_BUILD}"
    if not os.path.isfile(program):
        return False
    made, text = os.stat(program).st_mtime, built_from.listed(top)
    found = built_from.read(record)
    if found and found[1] == text and os.stat(record).st_mtime >= made:
        return True
    changed = (os.stat(f"{top}/{it}").st_ctime for it in built_from.named(text) if os.path.isfile(f"{top}/{it}"))
    return made > max(changed)


def why_other_sources(top=TOP):
    """Returns why the release is not the program of these sources, or None if it is, or if there is none."""
    recorded = built_from.read(f"{top}/{RECORD}")
    others = built_from.differences(recorded[1], built_from.listed(top)) if recorded else []
    more = f" and {len(others) - 3} more" if len(others) > 3 else ""
    return f"{FILE} is of other sources: {', '.join(others[:3])}{more}" if others else None


def logic_of(version):
    """Returns the logic of a toolchain, by its `rt version`: kits with one logic prove alike, and may compile differently."""
    return version.partition(" logic ")[2]


def is_comparable(recorded, version):
    """Whether a toolchain has the logic of the one that a release is of, so that the program built by it is compared."""
    return recorded == version or logic_of(recorded) == logic_of(version) != ""


def comparison(top=TOP, version=None):
    """Returns whether the release and the program in out/ are at odds, and what is to be said of them."""
    file, recorded, version = f"{top}/{FILE}", built_from.read(f"{top}/{RECORD}"), version or toolchain.version()
    if not recorded and not os.path.exists(file):
        return True, f"there is no {FILE} to compare with: `tools/dt release` makes it"
    if not recorded or not os.access(file, os.X_OK):
        return True, f"of {FILE} and {RECORD} one is missing, or the program is not executable: `tools/dt release` makes both"
    reason = why_other_sources(top)
    if reason:
        return False, f"{reason}. `tools/dt release` makes it anew"
    if not is_comparable(recorded[0], version):
        return False, f"{FILE} is of a toolchain with another logic, and not compared: {recorded[0]}. `tools/dt release` makes it anew"
    if not is_built(top):
        return True, f"{FILE} is of these sources, but no program built from them is here to compare it with"
    return compared(bytes_of(file), executable.stripped(bytes_of(f"{top}/crates/command/out/command")), recorded[0], version)


def compared(released, built, recorded, version):
    """Returns the same of the bytes of both. A difference refuses the release only if one kit made both: another one of the same logic may
    have another compiler."""
    both = f"{recorded}, and {version} of the same logic" if recorded != version else recorded
    if released == built:
        return False, f"the program is {FILE}, byte for byte ({both})"
    sums = f"sha256 {sum_of(released)} and {sum_of(built)}"
    if recorded != version:
        return False, f"WARNING: {FILE} DIFFERS from the program built here from the same sources, by another kit ({both}): {sums}"
    return True, f"{FILE} is not the program built from the same sources: {sums}"


def wrong_in_loop(file=BUILT):
    """Returns what the hart's loops call in the program that was built, in place of having it inline; or that it has no names to tell by."""
    names = executable.names(bytes_of(file)) if os.path.isfile(file) else []
    calls = sorted({it for it in names if it.startswith(INLINE)})
    if not names:
        return [f"{os.path.relpath(file, TOP)} isn't there or has no symbols, so nobody can tell what a loop of the hart calls"]
    return [f"a loop of the hart calls {it}, which it must have inline" for it in calls]


def make(top=TOP, version=None):
    """Writes both files, and returns the status."""
    if not is_built(top):
        say("no program built from these sources is here: run `./dthreads --build` or `.ci/run` first")
        return 1
    text, data = built_from.listed(top), executable.stripped(bytes_of(f"{top}/crates/command/out/command"))
    write_file(f"{top}/{FILE}.part", data, 0o755)
    os.replace(f"{top}/{FILE}.part", f"{top}/{FILE}")
    built_from.write(f"{top}/{RECORD}", version or toolchain.version(), text)
    say(f"{FILE} has {len(data):,} bytes, sha256 {sum_of(data)}; {RECORD} lists {len(built_from.named(text))} sources")
    return 0


def run(options):
    if not toolchain.path():
        say(toolchain.LACKS)
        return 1
    if not options.check:
        return make()
    is_at_odds, text = comparison()
    say(text)
    wrong = wrong_in_loop()
    for it in wrong:
        say(it)
    return 1 if is_at_odds or wrong else 0
