"""Runs every test of the crates, and every program against its expected output, unproved: minutes in place of the gate's hours.

It proves nothing: `.ci/run` is the verdict. Tests and programs are run as `rt ci` runs them, a program with its files data/, args,
stdin, stdout and status, but compiled with checks in place of proofs, which makes them up to a hundred times slower. So a crate's folder
may have files that make less of its runs here, and here alone:

  src.unproved       lines `file:`, `old:` and `new:`, as a mutant has them: other numbers in constants, such as how often a run is made
  args.unproved      the words that its program is given in place of args
  stdout.unproved    a line `old:` and a line `new:`: the line of stdout that these words change, and what it becomes
  seconds.unproved   how many seconds its tests and its program take about

The crates that take the longest come first: by what they took when they were last run here, or else by seconds.unproved. Those that have
neither come before them.
"""
import contextlib
import os
import re
import shutil
import sys
import tempfile
import time
import types

from dt_commands import lanes, toolchain
from dt_commands.progress import minutes
from dt_commands.repository import TOP, below, crates
from dt_commands.texts import contents, first_difference, write_file
from dt_mutants.edits import BadEdit, made, pairs_of, text_of
from dt_mutants.progress import processor_seconds

# What is tested besides the crates, each by its own part of this command.
PARTS = {
    "c-samples": "c_samples", "guest": "guest_tests", "manual": "manual_examples", "c-page": "c_page", "course": "course", "real": "real_programs",
    "gdb": "gdb_sessions", "editors": "editor_sessions", "origins": "origin_model", "hints": "hints", "core": "core_files", "races": "race_lists", "checks": "check_lists", "timeline": "timeline_files",
    "rows": "rows", "threads": "host_threads", "streams": "closed_streams", "bench": "bench", "kit": "kit_tests", "builds": "kit_words",
    "openmp": "openmp_tests", "nptl": "nptl_tests", "rust": "rust_tests", "variations": "variation_tests", "explore": "explore_tests", "numbers": "number_tests",
    "package": "package_tests", "build-tools": "build_tool_tests",
}

TEST = re.compile(r"^\s*#\[test\]", re.M)
VERDICT = re.compile(r"^test (\S+) \.\.\. (ok|FAILED)$")
ENDED = re.compile(r"^run=ended status=(\d+) ", re.M)
# A constant of a number or of a list of numbers, which is all that src.unproved may change.
CONSTANT = re.compile(r"((?:pub )?const \w+: )[^=]+ = (?:[\d_, \[\]]|\bu\d+::MAX\b)+;")
# How much of what a test, or a crate that doesn't compile, says is shown.
SHOWN = 12


def arguments(parser):
    parser.add_argument("crates", nargs="*", metavar="CRATE", help="the crates to test (default: all that have tests or are programs)")
    parser.add_argument("--lanes", type=int, metavar="N", help=lanes.HELP)
    parser.add_argument("--seconds", type=int, default=600, metavar="N", help="how long a test or a program may run (default: 600)")


def files_below(folder):
    """Returns the paths of the files below a folder, from there."""
    found = []
    for at, _, names in sorted(os.walk(folder)):
        found += [os.path.relpath(f"{at}/{it}", folder) for it in sorted(names)]
    return found


def has_tests(folder):
    sources = (f"{folder}/src/{it}" for it in files_below(f"{folder}/src") if it.endswith(".rt"))
    return any(TEST.search(contents(it).decode(errors="replace")) for it in sources)


def is_program(folder):
    return os.path.isfile(f"{folder}/src/main.rt")


class Result:
    """What the tests or the program of a crate came to: how many passed, what failed with what was said of it, and the seconds."""

    def __init__(self, what, passed=0, failures=(), seconds=0):
        self.what, self.passed, self.failures, self.seconds = what, passed, list(failures), seconds


def of_tests(said, status):
    """Reads what `rt try --test` said."""
    result = Result("tests")
    for line in said.splitlines():
        found = VERDICT.match(line)
        if found and found[2] == "ok":
            result.passed += 1
        elif found:
            result.failures.append((found[1], []))
        elif result.failures and line.startswith("    "):
            result.failures[-1][1].append(line.strip())
    if status and not result.failures:
        result.failures.append(("its tests did not run", said.splitlines()[-SHOWN:]))
    return result


def smaller(folder):
    """Returns the texts of the sources that the crate's src.unproved changes, by their paths in its folder."""
    file = f"{folder}/src.unproved"
    if not os.path.isfile(file):
        return {}
    try:
        pairs = pairs_of(text_of(file))
        for _, old, new in pairs:
            if not CONSTANT.fullmatch(old) or not new.startswith(CONSTANT.fullmatch(old)[1]) or not CONSTANT.fullmatch(new):
                raise BadEdit(f"only the value of a constant may be another: {old}")
        return made([types.SimpleNamespace(pairs=pairs, before=lambda path: text_of(f"{folder}/{path}"))])
    except BadEdit as why:
        raise SystemExit(f"{file}: {why}") from None


@contextlib.contextmanager
def as_unproved(folder):
    """Gives the folder in which the crate is run: its own, or, if its src.unproved changes sources, one in a copy for this run."""
    texts, (crates_folder, name) = smaller(folder), os.path.split(folder)
    if not texts:
        yield folder
        return
    unread = shutil.ignore_patterns("out", "proofs", "must-fail", "mutants")
    with tempfile.TemporaryDirectory(prefix="dt-test-") as top:
        for it in below(name):
            shutil.copytree(f"{crates_folder}/{it}", f"{top}/crates/{it}", ignore=unread)
        write_file(f"{top}/crates.txt", "".join(f"{it}: {' '.join(crates()[it])}\n" for it in below(name)))
        for path, text in texts.items():
            write_file(f"{top}/crates/{name}/{path}", text)
        yield f"{top}/crates/{name}"


def wanted_of(folder):
    """Returns what a program must write, with the line changed that stdout.unproved names."""
    wanted, change = contents(f"{folder}/stdout") or b"", contents(f"{folder}/stdout.unproved")
    if not change:
        return wanted
    old, new = (line.split(b": ", 1)[1] + b"\n" for line in change.splitlines())
    if wanted.count(old) != 1:
        raise SystemExit(f"{folder}/stdout.unproved: its old line must be in stdout once")
    return wanted.replace(old, new)


def of_program(wrote, said, folder):
    """Compares what a program wrote, and the status that `rt try` says it ended with, with what is wanted."""
    wanted, status = wanted_of(folder), int(contents(f"{folder}/status") or 0)
    ended, why = ENDED.search(said), []
    if not ended:
        return Result("its program", failures=[("its program did not end", said.splitlines()[-SHOWN:])])
    if int(ended[1]) != status:
        why.append(f"it ended with status {ended[1]} and not {status}")
    if wrote != wanted:
        why.append(f"what it wrote is not what its file stdout has: {first_difference(wrote, wanted)}")
    return Result("its program", passed=int(not why), failures=[("its program", why)] if why else [])


def tried(folder, words, given=b""):
    """Runs `rt try` in a crate's folder, and returns the status, and what came on standard output and on standard error."""
    ran = toolchain.start(["rt", "try", *words], cwd=folder, stdin=toolchain.PIPE, stdout=toolchain.PIPE, stderr=toolchain.PIPE)
    wrote, said = ran.communicate(given)
    return ran.returncode, wrote, said.decode(errors="replace")


def work(folder, seconds):
    """Runs the crate's tests and its program. Returns the results."""
    with as_unproved(folder) as it:
        return ran_in(it, seconds)


def ran_in(folder, seconds):
    """Runs the tests and the program of the crate in this folder."""
    found, limit = [], ["--seconds", str(seconds)]
    if has_tests(folder):
        begun = time.time()
        status, wrote, said = tried(folder, ["--test", *limit])
        found.append(of_tests(wrote.decode(errors="replace") + said, status))
        found[-1].seconds = time.time() - begun
    if is_program(folder):
        begun = time.time()
        data = [it for name in files_below(f"{folder}/data") for it in ("--data", f"{name}=data/{name}")]
        words = (contents(f"{folder}/args.unproved") or contents(f"{folder}/args") or b"").decode(errors="surrogateescape").splitlines()
        _, wrote, said = tried(folder, [*limit, *data, "--", *words], contents(f"{folder}/stdin") or b"")
        found.append(of_program(wrote, said, folder))
        found[-1].seconds = time.time() - begun
    return found


def expected_seconds(folder):
    """Returns how long the crate takes, by its last run here or by its seconds.unproved, or, if it has neither, the number of bytes of its
    sources. It comes behind a number that says so, and the greatest begins first."""
    text = contents(f"{folder}/out/test.seconds") or contents(f"{folder}/seconds.unproved")
    return (0, float(text)) if text else (1, sum(os.path.getsize(f"{folder}/src/{it}") for it in files_below(f"{folder}/src")))


def keep_seconds(folder, results):
    write_file(f"{folder}/out/test.seconds", f"{sum(it.seconds for it in results):.1f}\n")


def show(name, result):
    """Prints the line of a crate's tests or of its program, and below it what failed."""
    count = f"{result.passed} tests" if result.what == "tests" else result.what
    if not result.failures:
        print(f"{name}: {count} passed, {result.seconds:.0f} s", flush=True)
        return
    passed = f", {result.passed} passed" if result.what == "tests" else ""
    print(f"{name}: {len(result.failures)} FAILED{passed}, {result.seconds:.0f} s")
    for what, lines in result.failures:
        print(f"  {name}: {what} FAILED", *(f"    {it}" for it in lines[:SHOWN]), sep="\n", flush=True)


def run(options):
    if not toolchain.path():
        print(f"tools/dt test: {toolchain.LACKS}", file=sys.stderr)
        return 2
    every = [it for it in crates() if has_tests(f"{TOP}/crates/{it}") or is_program(f"{TOP}/crates/{it}")]
    lacking = [it for it in options.crates if it not in every]
    if lacking:
        print(f"tools/dt test: {lacking[0]} is no crate with tests, and no program: {' '.join(sorted(every))}", file=sys.stderr)
        return 2
    toolchain.end_at_signals(lambda: print("interrupted", file=sys.stderr))
    order = sorted(options.crates or every, key=lambda it: expected_seconds(f"{TOP}/crates/{it}"), reverse=True)
    side_by_side, begun, totals = lanes.count(options.lanes), time.time(), {"passed": 0, "failed": 0, "crates": 0}
    print(f"testing {len(order)} crates unproved, {side_by_side} at a time", flush=True)

    def tell(name, results):
        for it in results:
            show(name, it)
            totals["passed"] += it.passed
            totals["failed"] += len(it.failures)
        totals["crates"] += 1
        keep_seconds(f"{TOP}/crates/{name}", results)
        return []

    def still(names):
        so_far = minutes(time.time() - begun)
        print(f"{totals['crates']} of {len(order)} crates are done, and at work are {', '.join(names)} ({so_far} so far)", flush=True)

    tasks = [(name, lambda name=name: work(f"{TOP}/crates/{name}", options.seconds)) for name in order]
    lanes.tasks_in_lanes(side_by_side, tasks, tell, still)
    print(f"nothing is proved by this; it took {minutes(time.time() - begun)}, and {processor_seconds() / 60:.1f} processor minutes")
    print(f"{totals['passed']} passed, {totals['failed']} failed")
    return 1 if totals["failed"] else 0
