"""The tests of the C library: the programs of guest/tests.

In a line of guest/tests/list, a word `--argument=TEXT` is for dthreads-cc; all others are for `run`. A program marked `--c++` is left out
unless guest/build-libstdcxx was run, one marked `-fopenmp` unless guest/build-libgomp was. The programs of guest/tests/refused must not
build. DTHREADS names the program to run the others with, or else ./dthreads.
"""
import glob
import os
import tempfile
from collections import namedtuple

from dt_commands import guest_runs
from dt_commands.progress import Progress
from dt_commands.texts import contents, rows_of

FOLDER = f"{guest_runs.KIT}/tests"
# Options that dthreads-cc refuses, in one line.
REFUSED = ["-march=rv32imac", "-mabi=ilp32f", "-shared", "-flto"]
# The test of dthreads-exec, which is on no list.
EXEC = "exec"
# The marks of programs that need a library of the compiler: the command that builds it, the variable that names its folder, its file.
MARKS = {
    "--c++": ("build-libstdcxx", "DTHREADS_LIBSTDCXX", "libstdcxx/lib/libstdc++.a"),
    "-fopenmp": ("build-libgomp", "DTHREADS_LIBGOMP", "libgomp/lib/libgomp.a"),
}


def arguments(parser):
    parser.add_argument("names", nargs="*", metavar="NAME", help="the programs (default: all, and what must not build)")
    guest_runs.with_share(parser)


def source_of(name):
    """Returns the source of a program, from the folder of the tests: its asserts print that name."""
    return next(it for it in (f"{name}.c", f"{name}.cc") if os.path.exists(f"{FOLDER}/{it}"))


def is_built(mark):
    """Says whether the library that a mark stands for is there."""
    _, variable, file = MARKS[mark]
    return os.path.exists(f"{os.environ.get(variable) or f'{guest_runs.KIT}/out'}/{file}")


def lacking(words):
    """Returns what must be done before a program with these words can be built, or None."""
    return next((f"guest/{MARKS[it][0]}" for it in words if it in MARKS and not is_built(it)), None)


def has_cxx():
    return is_built("--c++")


def of_compiler(words):
    """Returns the words of a line that are of dthreads-cc."""
    return [it for it in words if it.startswith("--argument=") or it in MARKS]


def of_run(words):
    """Returns the words of a line that are of `run`."""
    return [part for it in words if it not in of_compiler(words) for part in it.split("=", 1)]


# A program of the list: its name, its source and the folder that it is compiled in, the words for dthreads-cc and for `run`, and its input,
# which is a file or None.
Program = namedtuple("Program", "name source folder of_compiler of_run given")


def program(name, words):
    """Returns a program of the list, from its line's words."""
    given = f"{FOLDER}/{name}.in"
    return Program(name, source_of(name), FOLDER, of_compiler(words), of_run(words), given if os.path.exists(given) else None)


def programs():
    """Returns the programs of the list that can be built here."""
    return [program(name, words) for name, _, *words in rows_of(f"{FOLDER}/list") if not lacking(words)]


def test_program(tally, room, name, status, *words):
    """Builds and runs a program of the list."""
    if lacking(words):
        print(f"{name}: left out, {lacking(words)} wasn't done")
        return
    it, elf = program(name, words), f"{room}/{name}.elf"
    said = guest_runs.compiled(["-O2", *it.of_compiler, it.source], elf, FOLDER)
    if said is not None:
        tally.fail(f"{said}{name}: doesn't build")
        return
    guest = guest_runs.Guest([guest_runs.program(), "run", elf], it.of_run, it.given)
    guest_runs.agree(tally, name, guest, room, contents(f"{FOLDER}/{name}.out"), int(status))


def test_exec(tally, room):
    """Tries what guest/dthreads-exec brings to a program and takes from it."""
    elf, two = f"{room}/exec.elf", f"{room}/two"
    said = guest_runs.compiled(["-O2", "-D_GNU_SOURCE", source_of(EXEC)], elf, FOLDER)
    if said is not None:
        tally.fail(f"{said}exec: doesn't build")
        return
    words = ["--env", "NAME=value", "--env", "OTHER=", "--file", f"/data/in/one.txt={FOLDER}/exec.file", "--out", f"two.txt={two}"]
    words += ["--seed", "5", "--", "-a", "b c", "", "--fail"]

    def also(run):
        if run.errors != contents(f"{FOLDER}/exec.err"):
            yield f"another text on standard error: {run.errors[:200].decode(errors='replace')}"
        if contents(two) != contents(f"{FOLDER}/exec.wanted"):
            yield "the file isn't the wanted one"
        if os.path.exists(two):
            os.remove(two)

    command = [f"{guest_runs.KIT}/dthreads-exec", elf]
    guest = guest_runs.Guest(command, words, f"{FOLDER}/exec.in", environment={"DTHREADS": guest_runs.program()})
    guest_runs.agree(tally, EXEC, guest, room, contents(f"{FOLDER}/exec.out"), 7, also=also)


def test_refused(tally, room, *words):
    """Tries what must not build, which dthreads-cc says in one line."""
    what, said = " ".join(words), guest_runs.compiled(["-O2", *words], f"{room}/refused.elf", FOLDER)
    if said is None:
        tally.fail(f"{what} builds")
    elif len(said.splitlines()) != 1 or not said.startswith("dthreads-cc: "):
        tally.fail(f"{what}: {said[:300]}")


def chosen(names):
    """Returns the rows of the list that are tried; the test of dthreads-exec is a row of its name alone."""
    rows = [*rows_of(f"{FOLDER}/list"), [EXEC]]
    return [it for it in rows if not names or it[0] in names]


def tasks(names):
    """Returns what is tried: a name and a call each. Without names, what must not build is among it."""
    found = [(row[0], lambda tally, room, row=row: test_exec(tally, room) if row == [EXEC] else test_program(tally, room, *row))
             for row in chosen(names)]
    sources = [[os.path.relpath(it, FOLDER)] for it in sorted(glob.glob(f"{FOLDER}/refused/*.c"))]
    if not sources:
        raise SystemExit(f"{FOLDER}/refused has no program that must not build")
    for words in [] if names else [*sources, *([it, "words.c"] for it in REFUSED)]:
        found.append((words[0], lambda tally, room, words=words: test_refused(tally, room, *words)))
    return found


def test(options):
    """Builds the programs of guest/tests, and runs each with 1, 2, 4 and 64 workers: expected output and status, and one trace."""
    tally, every = guest_runs.Tally(), guest_runs.share(options.share, tasks(options.names))
    tally.tried = len(every)
    with tempfile.TemporaryDirectory() as room, Progress("programs", len(every)) as progress:
        for _, does in progress.each(every, lambda it: it[0]):
            does(tally, room)
    return tally.status("programs", ", each with 1, 2, 4 and 64 workers: the expected output and one trace; or it must not build")
