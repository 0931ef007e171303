"""Runs the tests of these tools, those that prove nothing and need no compiler, several at a time.

Each lane is a process, so tests of two lanes can't see each other's changes of modules. Tests of classes with `is_long` come first. Skipped
tests are counted, and are failures with `--all`, as in the gate.
"""
import contextlib
import multiprocessing
import os
import sys
import time
import unittest
from concurrent import futures

from dt_commands.progress import Progress
from dt_commands.repository import TOP

FOLDER = f"{TOP}/tools/dt_tests"
# The tests, which the lanes' processes have from the one that they are forks of.
TESTS = []


def arguments(parser):
    parser.add_argument("names", nargs="*", metavar="NAME", help="the tests of tools/dt_tests/test_NAME.py alone")
    parser.add_argument("--lanes", type=int, metavar="N", help="how many at a time (default: one a processor)")
    parser.add_argument("--all", action="store_true", help="fail if a test is skipped")


def listed(names):
    """Returns the tests of these modules, the long ones first."""
    names = names or [it[5:-3] for it in sorted(os.listdir(FOLDER)) if it.startswith("test_") and it.endswith(".py")]
    found, waiting = [], [unittest.defaultTestLoader.loadTestsFromName(f"test_{it}") for it in names]
    while waiting:
        it = waiting.pop(0)
        if isinstance(it, unittest.TestSuite):
            waiting[:0] = it
        else:
            found.append(it)
    return sorted(found, key=lambda it: not getattr(it, "is_long", False))


def done(at):
    """Runs one of the tests, and returns what of it failed, as texts, and whether it was skipped."""
    result = unittest.TestResult()
    TESTS[at].run(result)
    wrong = [f"{it}\n{text}" for it, text in result.failures + result.errors]
    wrong += [f"{it}\nit was to fail, and passed\n" for it in result.unexpectedSuccesses]
    return wrong, bool(result.skipped)


def begin(lane_count):
    """Begins the tests in so many processes, which are forks of this one, before it has a second thread. Returns the pool and of each test
    its future and its name, or no pool on a machine without the shared memory that it needs."""
    try:
        pool = futures.ProcessPoolExecutor(lane_count, multiprocessing.get_context("fork"))
    except (ImportError, NotImplementedError, OSError):
        return None, {}
    return pool, {pool.submit(done, at): TESTS[at].id() for at in range(len(TESTS))}


def ends(lane_count):
    """Runs the tests, in lanes if there can be some. Yields what `done` returned for each, as it ends."""
    pool, begun = begin(lane_count)
    with Progress("tests", len(TESTS)) as progress, pool or contextlib.nullcontext():
        for it in futures.as_completed(begun):
            progress.done += 1
            progress.at = ", ".join([name for one, name in begun.items() if one.running()][:lane_count])
            yield it.result()
        for at in progress.each([] if pool else range(len(TESTS)), lambda at: TESTS[at].id()):
            yield done(at)


def run_all(lane_count):
    """Runs the tests, and returns what failed, and how many were skipped."""
    failed, skipped = [], 0
    for wrong, is_skipped in ends(lane_count):
        for text in wrong:
            print(f"FAILED: {text}", flush=True)
        failed, skipped = failed + wrong, skipped + is_skipped
    return failed, skipped


def run(options):
    begun = time.time()
    sys.path.insert(0, FOLDER)
    TESTS[:] = listed(options.names)
    failed, skipped = run_all(options.lanes or len(os.sched_getaffinity(0)))
    also = f", {skipped} skipped" if skipped else ""
    print(f"{len(TESTS)} tests of the tools, {len(failed)} failed{also}, {time.time() - begun:.1f} s")
    return 1 if failed or not TESTS or options.all and skipped else 0
