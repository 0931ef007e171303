"""Tries the tool on a crate of its own, in a temporary folder, with edits of which it is known what must come of each."""
import os
import subprocess
import tempfile

from dt_commands import kit
from dt_commands.lanes import tasks_in_lanes
from dt_mutants.edits import edits_of
from dt_mutants.trials import BAD, MISSED, REFUSED, Trial

HEAD = """//! Functions of numbers, to try edits on.
#![tactic(auto)]

ghost use Rattle.std.specs.Prelude.{◌≡◌, ◌≤◌, ◌+◌};
"""
FUNCTION = """
/// The number and {count}.
pub fn {name}_more(number: u32) -> u32
    requires {{ number ≤ 10 }}
    ensures {{ result ≡ number + {count} }}
{{
    number + {count}
}}
"""
# Each edit: the text that it replaces, the text in its place, and what must come of it.
EDITS = {
    "wrong_sum": ("    number + 1", "    number + 3", REFUSED),
    "wrong_sum_beside_a_bad_one": ("    number + 2", "    number", REFUSED),
    "same_sum": ("    number + 3", "    3 + number", MISSED),
    "no_number": ("    number + 4", "    true", BAD),
    "not_there": ("    number + 5", "    number", BAD),
}


def write(file, text):
    os.makedirs(os.path.dirname(file), exist_ok=True)
    with open(file, "w", encoding="utf-8") as it:
        it.write(text)


def make(top):
    """Writes a repository of one crate with its edits, and has it proved."""
    folder = f"{top}/crates/small"
    names = ("one", "two", "three", "four")
    write(f"{top}/crates.txt", "small:\n")
    write(f"{folder}/src/lib.rt", HEAD + "".join(FUNCTION.format(name=it, count=at) for at, it in enumerate(names, 1)))
    for name, (old, new, _) in EDITS.items():
        write(f"{folder}/mutants/{name}.edit", f"file: src/lib.rt\nold: {old}\nnew: {new}\n")
    quiet = {"stdin": subprocess.DEVNULL, "stdout": subprocess.PIPE, "stderr": subprocess.STDOUT}
    return subprocess.run(["rt", "check", "--jobs", "1"], cwd=folder, universal_newlines=True, **quiet)


def run(progress):
    """Runs the test, and returns the status."""
    kit.guard()
    with tempfile.TemporaryDirectory(prefix=f"rt-edits-{os.getpid()}-") as top:
        ran = make(top)
        if ran.returncode:
            print(f"mutants: self-test FAILED: the crate isn't proved as it stands:\n{ran.stdout[-1500:]}")
            return 1
        crate = kit.crate("small", top)
        trial = Trial(crate, edits_of("small", crate.folder), lambda it, *told: progress.ended("small", *told[:3], told[4]))
        progress.plan(len(trial.rounds))
        tasks_in_lanes(2, [(None, trial.begin)], lambda _, steps: [(None, it) for it in steps])
        trial.end()
    found = {it.name: trial.results.get(it, ("not tried", ""))[0] for it in trial.edits}
    wrong = [it for it, (_, _, wanted) in EDITS.items() if found[it] != wanted]
    for it in wrong:
        print(f"mutants: self-test: {it}: {found[it]}, and must be {EDITS[it][2]}")
    well = not wrong and not trial.failure and len(trial.failed) == 3
    print(f"mutants: self-test {'ok' if well else 'FAILED'}: {trial.failure or ', '.join(f'{name} {kind}' for name, kind in found.items())}")
    return 0 if well else 1
