"""Crates of Debian on the machine: the programs of guest/tests/rust/crates, each with a wanted output.

The sources are those of Debian's packages, which PACKAGES names. What a program prints is the same with each number of workers, and so is
its trace.
"""
import glob
import os
import shutil
import subprocess
import tempfile

from dt_commands import guest_runs, rust_tests
from dt_commands.progress import Progress
from dt_commands.texts import contents

FOLDER = f"{guest_runs.KIT}/tests/rust/crates"
REGISTRY = "/usr/share/cargo/registry"
PACKAGES = ["arc-swap", "async-channel", "crossbeam", "dashmap", "flume", "futures", "parking-lot", "rand", "rayon", "serde-json", "sharded-slab",
            "thread-local", "threadpool", "tokio"]


def missing(packages=PACKAGES):
    """Returns the packages that aren't there."""
    return [f"librust-{it}-dev" for it in packages if not glob.glob(f"{REGISTRY}/{it.replace('-', '[-_]')}-[0-9]*")]


def names():
    """Returns the programs' names."""
    return sorted(os.path.basename(it)[:-3] for it in glob.glob(f"{FOLDER}/src/bin/*.rs"))


def test(options):
    """Builds programs that use Debian's crates, and runs each with 1, 2, 4 and 64 workers."""
    if missing():
        print(f"Debian's crates: left out, {', '.join(missing())} are missing: apt-get install {' '.join(missing())}")
        return 1
    tally = guest_runs.Tally()
    chosen = [it for it in names() if not options.names or it in options.names]
    tally.tried = len(chosen)
    with tempfile.TemporaryDirectory() as room, Progress("programs", len(chosen)) as progress:
        where = f"{room}/crates"
        shutil.copytree(FOLDER, where)
        for name in progress.each(chosen, str):
            words = [f"{guest_runs.KIT}/dthreads-cargo", "build", "--offline", "--bin", name]
            ran = subprocess.run(words, cwd=where, stdout=subprocess.PIPE, stderr=subprocess.STDOUT, errors="replace")
            if ran.returncode:
                tally.fail(f"{ran.stdout[-1000:]}{name}: doesn't build")
                continue
            elf = f"{where}/target/riscv32im-dthreads/debug/{name}"
            guest = guest_runs.Guest([f"{guest_runs.KIT}/dthreads-exec", elf], environment=rust_tests.environment())
            guest_runs.agree(tally, name, guest, room, contents(f"{FOLDER}/{name}.out"), 0)
            found = rust_tests.findings_of(elf, [], None, room)
            if found:
                tally.fail(f"{name}: findings {found[:3]}")
    return tally.status("programs over Debian's crates", ", each with 1, 2, 4 and 64 workers: the wanted output and one trace, no finding")
