"""The tests that Rust's std and alloc bring with them, from the package rust-web-src, over crates that stand for those which they use of
others. rust_alloc says where those of alloc are."""
import os
import re
import subprocess
import tempfile
from collections import namedtuple

from dt_commands import guest_runs, rust_alloc, rust_tests
from dt_commands.progress import Progress
from dt_commands.texts import contents

FOLDER = "/usr/lib/rustlib/src/rust/library"
# Some of the tests: their first file, below FOLDER or elsewhere, the tests that are left out and why, further words of rustc, the edition.
Part = namedtuple("Part", "file left_out words edition", defaults=({}, (), "2024"))
# (what is unstable in std, the file of `sync` doesn't say)
TESTS = {
    "sync": Part("std/tests/sync/lib.rs", {"test_rwlock_max_readers": "it reads a lock 2^30 times"}, ["-Zcrate-attr=feature(sync_poison_mod)"]),
    "thread": Part("std/tests/thread.rs"),
    "thread_local": Part("std/tests/thread_local/lib.rs"),
    "num": Part("std/tests/num.rs"),
    "panic": Part("std/tests/panic.rs"),
    "time": Part("std/tests/time.rs", {"instant_monotonic_concurrent": "it reads the clock 40,000,000 times"}),
    "env": Part("std/tests/env.rs", {"test_self_exe_path": "a program has no file of its own"}),
    "alloc": Part(rust_alloc.BESIDE),
    "alloc_api": Part(None, rust_alloc.LEFT_OUT, ["--extern=alloc", "--cap-lints=allow"], "2021"),
}
# The tests that may be explored by numbers; and those of them that fail by some, and why.
EXPLORED = "sync"
FAILING = dict.fromkeys(["condvar::nonpoison_condvar::nonpoison_wait_timeout_wake", "condvar::poison_condvar::poison_wait_timeout_wake"],
                        "after a wait that ends without a signal it joins a thread while it holds the mutex that the thread wants")
OUTCOME = re.compile(r"^(\S+) +(\d+) of \d+ (pass|fail)(.*)$", re.M)
# The crates that stand for those of others, with what each takes of them.
CRATES = {"rand": [], "rand_xorshift": ["--extern=rand"]}
PASSED = re.compile(r"^test result: ok\. (\d+) passed; 0 failed; (\d+) ignored; 0 measured; (\d+) filtered out", re.M)
# A part is run with each of these numbers of workers, and with as many tests at a time.
WORKERS, AT_A_TIME = (4, 1, 2, 64), 4


def run(elf, part, workers, room):
    """Runs some of the tests. Returns the status, what they said, and the digest of the run."""
    skipped = [word for it in part.left_out for word in ("--skip", it)]
    digest = f"{room}/digest"
    command = [f"{guest_runs.KIT}/dthreads-exec", elf, "--bound", "1099511627776", "--workers", str(workers), "--digest", digest]
    how = {"stdin": subprocess.DEVNULL, "stdout": subprocess.PIPE, "stderr": subprocess.STDOUT, "errors": "replace"}
    ran = subprocess.run([*command, "--", "--test-threads", str(AT_A_TIME), *skipped], env=rust_tests.environment(), **how)
    return ran.returncode, ran.stdout, contents(digest)


def words_of(name, part, room):
    """Returns the words of rustc that build some of the tests, or None if they aren't there."""
    file = rust_alloc.older(room) if name == "alloc_api" else os.path.join(FOLDER, part.file)
    own = rust_alloc.words_beside() if name == "alloc" else part.words
    crates = [f"--extern={it}" for it in CRATES]
    return file and ["--test", "--edition", part.edition, "-Awarnings", *own, f"-L{room}", *crates, file]


def test_part(tally, room, name, part, count):
    """Builds and runs some of the tests, explores them if a count of numbers is given, and says what came of them."""
    elf = f"{room}/{name}.elf"
    words = words_of(name, part, room)
    if not words:
        print(f"{name}: left out: {rust_alloc.HOW}", flush=True)
        return
    said = rust_tests.compiled(words, elf, room)
    if said is not None:
        tally.fail(f"{said[-2000:]}{name}: doesn't build")
        return
    status, said, digest = run(elf, part, WORKERS[0], room)
    passed = PASSED.search(said)
    if status or not passed:
        tally.fail(f"{name}: status {status}: {said[-1500:]}")
        return
    for workers in WORKERS[1:]:
        if run(elf, part, workers, room) != (status, said, digest):
            tally.fail(f"{name}: another run with {workers} workers")
    print(f"{name}: {passed[1]} passed, {passed[2]} ignored by std, {passed[3]} left out"
          + "".join(f"; {it}: {why}" for it, why in part.left_out.items()), flush=True)
    if count and name == EXPLORED:
        explore(tally, elf, part, count, room)


def explore(tally, elf, part, count, room):
    """Explores each test by numbers from 1 on: none may fail but those of FAILING."""
    settings = {"TOLD": f"{room}/told", "EXPLORE": f"--runs\n{count}", "RUN": "--workers\n2", "WORDS": ""}
    environment = {**rust_tests.environment(), **{f"DTHREADS_CARGO_{name}": value for name, value in settings.items()}}
    how = {"stdin": subprocess.DEVNULL, "stdout": subprocess.PIPE, "stderr": subprocess.STDOUT, "errors": "replace"}
    skipped = [word for it in part.left_out for word in ("--skip", it)]
    ran = subprocess.run([f"{guest_runs.KIT}/rust/explore", elf, *skipped], env=environment, **how)
    outcomes = OUTCOME.findall(ran.stdout)
    failed = {name: f"{runs} fail{rest}" for name, runs, kind, rest in outcomes if kind == "fail"}
    if ran.returncode or not outcomes:
        tally.fail(f"{EXPLORED}: can't be explored: {ran.stdout[-1500:]}")
    for it in sorted(failed.keys() - FAILING.keys()):
        tally.fail(f"{it}: {failed[it]}")
    print(f"{EXPLORED}, explored: {len(outcomes) - len(failed)} of {len(outcomes)} pass by each of {count} numbers"
          + "".join(f"; {it}: {failed[it]}: {FAILING.get(it, 'unknown')}" for it in sorted(failed)), flush=True)


def build_crates(room):
    """Builds the crates that stand for those of others."""
    for name, others in CRATES.items():
        words = ["--crate-type", "rlib", *rust_tests.EDITION, f"-L{room}", *others, f"{rust_tests.FOLDER}/rand/{name}.rs"]
        said = rust_tests.compiled(words, f"{room}/lib{name}.rlib", room)
        if said is not None:
            raise SystemExit(said)


def test(options):
    """Runs the tests of std and alloc, or those of the named parts."""
    chosen = [it for it in TESTS.items() if not options.names or it[0] in options.names]
    tally = guest_runs.Tally()
    tally.tried = len(chosen)
    with tempfile.TemporaryDirectory() as room, Progress("parts of std's tests", len(chosen)) as progress:
        build_crates(room)
        for name, part in progress.each(chosen, lambda it: it[0]):
            test_part(tally, room, name, part, options.numbers)
    return tally.status("parts of std's own tests", ": all of them passed, alike with 1, 2, 4 and 64 workers")
