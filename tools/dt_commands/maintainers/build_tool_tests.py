"""Tests of the example of builds in samples/builds, by CMake with ctest, by Meson, and by the commands of the workflow.

Its tests pass; with its bug they fail, and name a command that shows it. It needs the packages cmake, meson and ninja-build. DTHREADS names
the program, or else ./dthreads.
"""
import os
import re
import shutil
import subprocess
import tempfile

from dt_commands import guest_runs
from dt_commands.repository import TOP
from dt_commands.texts import read_text

FOLDER, TESTS = f"{TOP}/samples/builds", ("run", "schedules", "races")
# A command that shows a failing run.
SHOWN = re.compile(r"exit 1: (dthreads-exec .* --shuffle \S+)$", re.M)
CMAKE = [f"cmake -B out -DCMAKE_TOOLCHAIN_FILE={guest_runs.KIT}/cmake-toolchain.cmake", "cmake --build out"]
CTEST, MESON = "ctest --test-dir out --output-on-failure", f"meson setup --cross-file {guest_runs.KIT}/meson-cross.ini out"
MESON_TEST = "meson test -C out --print-errorlogs"


def steps():
    """Returns the commands of the workflow's steps but the first, which installs packages."""
    found = re.findall(r"^        run: \|\n((?:          .*\n)+)", read_text(f"{FOLDER}/dthreads.yml"), re.M)
    return [line.strip() for it in found[1:] for line in it.splitlines()]


# How the example is built and tested, and whether with its bug.
WAYS = [
    ("cmake", [*CMAKE, CTEST], False),
    ("cmake", [f"{CMAKE[0]} -DBUG=1", CMAKE[1], CTEST], True),
    ("meson", [MESON, MESON_TEST], False),
    ("meson", [f"{MESON} -Dbug=true", MESON_TEST], True),
    ("workflow", steps(), False),
]


def called(commands, room):
    """Calls commands in a folder up to the first that fails. Returns the status and what was said."""
    environment = {**os.environ, "DTHREADS": guest_runs.program(), "PATH": f"{guest_runs.KIT}:{os.environ['PATH']}"}
    how = {"stdin": subprocess.DEVNULL, "stdout": subprocess.PIPE, "stderr": subprocess.STDOUT, "text": True, "check": False}
    ran = subprocess.run(["bash", "-c", " && ".join(commands)], cwd=room, env=environment, **how)
    return ran.returncode, ran.stdout


def is_shown(said, room):
    """Returns whether the command that was told for a failing run shows it."""
    told = SHOWN.search(said)
    return bool(told) and called([told[1]], room)[0] == 1


def try_way(tally, room, way):
    """Builds and tests the example in one way."""
    name, commands, has_bug = way
    shutil.rmtree(f"{room}/project", ignore_errors=True)
    shutil.copytree(FOLDER, f"{room}/project")
    # (the workflow has a checkout of dthreads there)
    os.symlink(TOP, f"{room}/project/dthreads")
    status, said = called(commands, f"{room}/project")
    if bool(status) != has_bug or not all(it in said for it in TESTS):
        tally.fail(f"{name}, {'with' if has_bug else 'without'} the bug: status {status}\n{said[-3000:]}")
    elif has_bug and not is_shown(said, f"{room}/project/out"):
        tally.fail(f"{name}: no command shows the failing run\n{said[-3000:]}")


def test(_):
    """Tests the example of builds by CMake, Meson and the commands of a workflow."""
    return guest_runs.all_tried("builds of the example", WAYS, try_way, ": its tests pass, and fail with its bug")
