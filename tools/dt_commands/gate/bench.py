"""The bench: a program over the crates of the product that measures how fast guests run, and single parts.

Its sources and proofs are in tools/bench, whose file `uses` has the crates that it depends on. It is no crate of crates.txt, so that the
gate proves nothing of it, but compiles it. There the names of sources and proofs end in .text, since rt ci refuses such files outside crates. To measure, it is proved and built beside a copy of the crates below it, over what `./dthreads
--build` or a check left of them in this checkout.
"""
import os
import shutil
import subprocess
import tempfile

from dt_commands import kit, toolchain
from dt_commands.repository import TOP, below
from dt_commands.texts import contents, first_difference, write_file

FOLDER, NAME = f"{TOP}/tools/bench", "tool_bench"
# Where it is built. Git ignores folders of this name.
PLACE = f"{FOLDER}/out"
SECONDS = 300


def uses():
    """Returns the names of the crates that it depends on."""
    return contents(f"{FOLDER}/uses").decode().split()


def crates_below():
    """Returns the crates of this repository below it, each with a line of crates.txt."""
    names = []
    for it in uses():
        names += [name for name in below(it) if name not in names]
    return names


def linked(source, copy):
    """Copies a file. A checked module is the same file by a hard link, since no check writes into one."""
    (os.link if source.endswith(kit.CHECKED) else shutil.copy2)(source, copy)


def named(source, copy):
    """Copies a file of the bench, under the name that it has in a crate."""
    shutil.copy2(source, copy.removesuffix(".text"))


def put(place, is_proved):
    """Puts the bench and the crates below it into a folder, the latter with what is built of them if it is to be proved."""
    unread = None if is_proved else shutil.ignore_patterns("out", "must-fail", "mutants")
    for name in crates_below():
        shutil.rmtree(f"{place}/crates/{name}", ignore_errors=True)
        shutil.copytree(f"{TOP}/crates/{name}", f"{place}/crates/{name}", ignore=unread, copy_function=linked)
    for part in ("src", "proofs"):
        shutil.rmtree(f"{place}/crates/{NAME}/{part}", ignore_errors=True)
        shutil.copytree(f"{FOLDER}/{part}", f"{place}/crates/{NAME}/{part}", copy_function=named)
    lines = [it for it in contents(f"{TOP}/crates.txt").decode().splitlines() if it.split(":")[0] in crates_below()]
    write_file(f"{place}/crates.txt", "\n".join([*lines, f"{NAME}: {' '.join(uses())}", ""]))
    shutil.copy(f"{TOP}/HANDLES", place)
    return f"{place}/crates/{NAME}"


def arguments(parser):
    parser.add_argument("words", nargs="*", metavar="WORD", help="FILE COUNT [PART], as the bench itself has them")


def measure(options):
    """Measures how fast guests run, and single parts, by a program over the library: FILE COUNT [PART]."""
    crate = put(PLACE, is_proved=True)
    words = [os.path.abspath(it) if os.path.exists(it) else it for it in options.words]
    return subprocess.run(["rt", "run", "--", *(words or ["--help"])], cwd=crate).returncode


def test(options):
    """Compiles the bench without a proof, and compares its help."""
    with tempfile.TemporaryDirectory(prefix="bench-") as place:
        how = {"cwd": put(place, is_proved=False), "stdout": toolchain.PIPE, "stderr": toolchain.PIPE}
        wrote, said = toolchain.start(["rt", "try", "--seconds", str(SECONDS), "--", "--help"], **how).communicate()
    wanted = contents(f"{FOLDER}/help.txt")
    if wrote != wanted:
        print(f"the help of the bench: {first_difference(wrote, wanted)}\n{said.decode(errors='replace')}")
        return 1
    print("1 bench, compiled without a proof: its help is as expected")
    return 0
