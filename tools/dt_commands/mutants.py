"""Tries the mutants: edits of the crates' sources that the prover has to refuse.

A file crates/NAME/mutants/WHAT_IS_WRONG.edit has the form of a must-fail edit. Edits that change different functions of a crate are
made at once in a copy of the crate, which is checked once, over what a check of the crate as it stands proved. An edit counts as
refused only if that check names the function that it changes with a clause that wasn't proved, or with a refusal in the function's own
proof files. Any other edit is tried alone, as `rt must-fail` does; what meets a limit of the prover is tried once more with more room. An
edit that isn't refused is a failure, and so is one that doesn't apply, read or compile, that only a limit stops, or that no goal of the
function that it changes refuses, unless tools/weak-mutants says why (which also names crates that are still to be looked at). The status is 1 if anything failed.

  tools/dt mutants                     tries the crates whose entry in mutants.lock is stale, and writes the entries of those that passed
  tools/dt mutants CRATE..             tries these crates, and writes their entries
  tools/dt mutants --all               tries every crate, and writes their entries
  tools/dt mutants --gate              as .ci/run calls it, after rt ci: tries those that are stale and a tenth of all, and writes nothing
  tools/dt mutants --gate --write ..   tries those that are stale, or the named ones, over what rt ci left, and writes their entries

An entry is stale if the sum of what a round reads differs, or if its verdicts aren't of the crate's mutants. The gate also draws a tenth of
the crates by the number of the commit, and fails if the lock says of one of their mutants that another function refuses it.

Only a crate of which this call tried every edit, each refused, gets its entry, as soon as its trial ended; one that failed loses it.
Libraries that aren't of the sources as they are don't count as left by rt ci: then the crate is proved first.

Before a change lands, call it without words and commit mutants.lock: the gate then has nothing to try but what it draws.
"""
import os
import shutil
import subprocess
import sys
import time

from dt_commands import kit, lanes
from dt_commands.repository import TOP
from dt_mutants import draw, left, lock, selftest
from dt_mutants.edits import edits_of
from dt_mutants.progress import Progress, processor_seconds
from dt_mutants.trials import Trial


def arguments(parser):
    parser.add_argument("crates", nargs="*", metavar="CRATE", help="the crates to try")
    parser.add_argument("--all", action="store_true", help="try every crate that has mutants")
    parser.add_argument("--gate", action="store_true", help="try what is stale and a tenth of all, over what rt ci left, and write nothing")
    parser.add_argument("--write", action="store_true", help="with --gate: draw none, and write the entries of the crates that passed, as without --gate")
    parser.add_argument("--lanes", type=int, metavar="N", help=lanes.HELP)
    parser.add_argument("--self-test", action="store_true", help="try the tool itself, on a crate made for it: about a minute")
    parser.add_argument("--save", metavar="FOLDER", help="write what each check printed to files in this folder")


def chosen(options, stale, names):
    """Returns the crates to try, in the order of crates.txt, and says why."""
    unknown = [it for it in options.crates if it not in names]
    if unknown:
        sys.exit(f"tools/dt mutants: {unknown[0]} is no crate with mutants")
    if options.crates or options.all:
        return [it for it in names if options.all or it in options.crates]
    for name, why in stale.items():
        print(f"mutants: {name} is stale in mutants.lock: {why}")
    group, by = draw.drawn(names) if options.gate and not options.write else ([], "")
    if by:
        print(f"mutants: drawn {by}: {', '.join(group) or 'none'}", flush=True)
    return [it for it in names if it in stale or it in group]


class Session:
    """One call of the command: the trials of its crates, and what came of them."""

    def __init__(self, options):
        self.options, self.progress = options, Progress()
        self.old = lock.read()
        self.sums = {it: lock.sum_of(it) for it in lock.with_mutants()}
        self.stale = {name: why for name in self.sums for why in [lock.staleness(name, self.old.get(name))] if why}
        # the trials, how many of its steps each has left, and the crates that aren't proved
        self.trials, self.left, self.unproved = {}, {}, {}

    def run(self):
        names = chosen(self.options, self.stale, list(self.sums))
        if not names:
            print(f"mutants: nothing to try: mutants.lock has all {len(self.sums)} crates as they are")
            self.write()
            return 0
        kit.guard()
        known = {}
        for name in names:
            self.prepare(kit.crate(name, known=known))
        lane_count = lanes.count(self.options.lanes)
        edits, rounds = sum(len(it.edits) for it in self.trials.values()), sum(len(it.rounds) for it in self.trials.values())
        self.progress.say(f"mutants: {edits} edits of {len(self.trials)} crates in {rounds} rounds, {lane_count} at a time")
        # the largest first, so that no lane is left alone with one
        order = sorted(self.trials, key=lambda it: -len(self.trials[it].rounds) * self.trials[it].crate.count(rb"\n"))
        lanes.tasks_in_lanes(lane_count, [(it, self.trials[it].begin) for it in order], self.ended)
        return self.summary(lane_count)

    @property
    def writes(self):
        """Whether the lock may be written. The gate alone writes nothing."""
        return self.options.write or not self.options.gate

    def prepare(self, crate):
        """Has the crate proved, unless kept work or what rt ci left serves, and plans its rounds."""
        is_left = self.options.gate and left.serves(crate)
        wants_proof = not kit.is_ready(crate) and not is_left
        if wants_proof:
            self.progress.say(f"{crate.name}: proving it first, over kept work ({self.progress.so_far()} so far)")
            words = {"cwd": crate.folder, "stdin": subprocess.DEVNULL, "stdout": subprocess.PIPE, "stderr": subprocess.STDOUT}
            ran = subprocess.run(["rt", "check"], universal_newlines=True, errors="replace", **words)
            if ran.returncode:
                self.unproved[crate.name] = f"it isn't proved, so none of its edits was tried:\n{ran.stdout[-1500:]}"
                return
        self.trials[crate.name] = Trial(crate, edits_of(crate.name, crate.folder), self.note, wants_proof)
        self.left[crate.name] = 1
        self.progress.plan(len(self.trials[crate.name].rounds))

    def note(self, trial, edits, what, again, said, took):
        self.progress.ended(trial.crate.name, edits, what, again, took)
        if self.options.save:
            os.makedirs(self.options.save, exist_ok=True)
            name = edits[0].name if len(edits) == 1 else f"round_{time.time_ns()}"
            with open(f"{self.options.save}/{trial.crate.name}.{name}.said", "w", encoding="utf-8") as it:
                it.write("".join(f"# {edit.name}\n" for edit in edits) + said)

    def ended(self, name, steps):
        """Takes account of a step that ended, and returns the tasks that it makes needed."""
        self.left[name] += len(steps) - 1
        if not self.left[name]:
            self.conclude(name)
        return [(name, it) for it in steps]

    def conclude(self, name):
        """Ends a crate's trial. Its entry is written at once, so that an interrupt loses no crate that passed; one that failed has none."""
        trial = self.trials[name]
        trial.end()
        lock.forget()
        if not trial.failure and lock.sum_of(name) != self.sums[name]:
            trial.failure = "its files were changed meanwhile: try it again"
        if not trial.failure:
            self.write(trial)

    def write(self, *trials):
        """Writes what trials came to into the lock."""
        if self.writes:
            lock.record(*trials)

    def summary(self, lane_count):
        """Prints what failed, and a last line, and returns the status."""
        failures = [f"{name}: {why}" for name, why in self.unproved.items()]
        tried = refused = 0
        for name, trial in self.trials.items():
            if trial.failure:
                failures.append(f"{name}: {trial.failure}")
            else:
                failures += [f"{it}: {kind.upper()}: {text}" for it, kind, text in trial.failed] or self.disagreements(name, trial)
            for it, text in trial.told:
                print(f"mutants: to be looked at: {it}: {text}")
            tried, refused = tried + len(trial.edits), refused + len(trial.edits) - len(trial.failed) - len(trial.told)
        for it in failures:
            print(f"mutants: {it}")
        how = f"{self.progress.done} checks, {self.progress.alone} of one edit, {self.progress.so_far()} on {lane_count} lanes"
        print(f"mutants: {refused} of {tried} refused, {len(failures)} failed; {how}, {processor_seconds():,.0f} processor seconds", flush=True)
        return 1 if failures else 0

    def disagreements(self, name, trial):
        """Returns what the lock has otherwise than this trial, of a crate that isn't stale, unless this call writes the lock."""
        if self.writes or name in self.stale:
            return []
        found = lock.differences(trial, self.old[name])
        return [f"{it}: mutants.lock says that {', '.join(said)} refuses it, and it was {', '.join(now)}" for it, said, now in found]

    def clear(self):
        for it in self.trials.values():
            shutil.rmtree(it.room or "", ignore_errors=True)


def run(options):
    os.chdir(TOP)
    if options.self_test:
        return selftest.run(Progress())
    session = Session(options)
    try:
        return session.run()
    except KeyboardInterrupt:
        # (the checks end with this process)
        print("mutants: interrupted; the crates that passed are in mutants.lock", flush=True)
        session.clear()
        os._exit(130)
    finally:
        session.clear()
