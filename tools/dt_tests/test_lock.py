"""Tests of which entries of mutants.lock a call of `tools/dt mutants` writes, over trials that are fakes: each crate's outcome is given."""
import argparse
import ast
import contextlib
import glob
import io
import json
import os
import subprocess
import tempfile
import time
import types
import unittest
from unittest import mock

from dt_commands import mutants
from dt_commands.repository import TOP
from dt_commands.texts import read_text, write_file
from dt_mutants import draw, left, lock, trials, verdicts
from dt_mutants.lock import Entry
from rooms import WithRoom

# The crates with mutants, in the order of crates.txt, and what the lock has of them before a call: of the first the sum as it is.
SUMS = {it: f"{it}-now" for it in ("same", "good", "other", "bad", "broken", "changed", "new")}
OLD = {"same": "same-now", "good": "good-then", "other": "other-then", "bad": "bad-then", "broken": "broken-then", "changed": "changed-then", "gone": "gone"}


def edit(name, *labels):
    """An edit of the functions with these labels; without any it changes something else."""
    return types.SimpleNamespace(name=name, why=None, places=[types.SimpleNamespace(label=it) for it in labels] or None)


EDITS = [edit("one", "f"), edit("two", "g", "T::h"), edit("three")]
FOUND = {("one", "f", "goal"), ("two", "T::h", "goal"), ("three", "any", "goal")}


class FakeTrial:
    """A trial of a crate: an edit of `bad` isn't refused, `broken` can't be tried, and all edits of any other are refused."""

    def __init__(self, crate, edits, note, is_proved=False):
        self.crate, self.edits, self.rounds, self.room, self.is_over = crate, EDITS, [["one", "two"]], None, False
        self.failure = "it couldn't be tried" if crate.name == "broken" else None
        self.failed = [("one", "not refused", "told")] if crate.name == "bad" else []
        self.told = []
        by_name = {it.name: it for it in EDITS}
        self.verdicts = [verdicts.Verdict(by_name[name], function, goal) for name, function, goal in FOUND]

    def begin(self):
        return []

    def end(self):
        self.is_over = True


class WithLock(WithRoom):
    def setUp(self):
        super().setUp()
        fakes = {"guard": lambda: None, "crate": lambda name, known: types.SimpleNamespace(name=name, folder=self.room, count=lambda _: 1)}
        self.changed, self.number = [], 0
        for it in (
            (lock, "LOCK", f"{self.room}/mutants.lock"),
            (lock, "sum_of", lambda name: "later" if name in self.changed else SUMS[name]),
            (lock, "with_mutants", lambda: list(SUMS)),
            (lock, "edits_of", lambda *_: EDITS),
            (lock.weak, "listed", lambda _: {}),
            (mutants, "Trial", FakeTrial),
            (mutants, "edits_of", lambda *_: []),
            (mutants, "kit", types.SimpleNamespace(is_ready=lambda _: True, **fakes)),
            (left, "serves", lambda _: True),
            (draw, "cost", len),
            (draw, "commit_number", lambda: self.number),
        ):
            self.patch(*it)
        self.put({name: Entry(sum, FOUND) for name, sum in OLD.items()})

    def put(self, entries):
        """Writes entries by hand."""
        write_file(lock.LOCK, "".join(lock.text_of(name, entry) for name, entry in entries.items()))

    def ran(self, *words):
        """Runs the command, and returns its status; `said` is what it printed."""
        parser = argparse.ArgumentParser()
        mutants.arguments(parser)
        session = mutants.Session(parser.parse_args(words))
        # (a file changes while its crate is tried)
        self.changed = ["changed"]
        with contextlib.redirect_stdout(io.StringIO()) as out:
            status = session.run()
        self.said, self.changed = out.getvalue(), []
        return status


class Lines(WithLock):
    def written(self, *words):
        """Runs the command, and returns its status and the sums that the lock has then and hadn't, or None for what it lost."""
        status, now = self.ran(*words), lock.read()
        self.assertTrue(all(it.verdicts == FOUND for it in now.values()))
        now = {name: it.sum for name, it in now.items()}
        return status, {it: now.get(it) for it in {**OLD, **now} if now.get(it) != OLD.get(it)}

    def test_the_gate_writes_nothing(self):
        self.assertEqual(self.written("--gate"), (1, {}))
        self.assertEqual(self.written("--gate", "good"), (0, {}))

    def test_asked_to_it_writes_the_entries_of_those_that_passed_and_of_no_others(self):
        self.assertEqual(self.written("--gate", "--write", "good"), (0, {"good": "good-now", "gone": None}))

    def test_a_crate_that_failed_loses_its_entry_and_one_that_was_not_judged_keeps_it(self):
        status, differ = self.written("--gate", "--write", "good", "bad", "broken", "changed", "new")
        self.assertEqual((status, differ), (1, {"good": "good-now", "bad": None, "new": "new-now", "gone": None}))
        self.assertIn("changed: its files were changed meanwhile", self.said)

    def test_without_names_those_that_are_stale_are_tried(self):
        status, differ = self.written("--gate", "--write")
        self.assertEqual((status, differ), (1, {"good": "good-now", "other": "other-now", "bad": None, "new": "new-now", "gone": None}))

    def test_without_the_gate_entries_are_written_unasked(self):
        self.assertEqual(self.written("good"), (0, {"good": "good-now", "gone": None}))

    def test_a_trial_that_is_not_over_or_failed_makes_no_entry(self):
        trial = FakeTrial(types.SimpleNamespace(name="same"), [], None)
        lock.record(trial)
        self.assertNotIn("same", lock.read())
        trial.end()
        lock.record(trial)
        self.assertEqual(lock.read()["same"], Entry("same-now", FOUND))
        trial.told = [("one", "a proof file names what it took away")]
        lock.record(trial)
        self.assertNotIn("same", lock.read())


class Staleness(WithLock):
    def test_an_entry_of_the_files_and_the_mutants_alone_is_not_stale(self):
        one, listed = {("one", "f", "goal")}, {"one": "a table of names"}
        nowhere = FOUND - one | {("one", *trials.NOWHERE)}
        for entry, wanted, of_list in (
            (Entry("same-now", FOUND), "", {}), (Entry("then", FOUND), "sum", {}), (None, "no line", {}),
            (Entry("same-now", FOUND | {("four", "f", "goal")}), "verdicts", {}), (Entry("same-now", FOUND - one), "verdicts", {}),
            (Entry("same-now", FOUND - one | {("one", "g", "goal")}), "verdicts", {}),
            (Entry("same-now", FOUND - one | {("one", "f")}), "verdicts", {}),
            (Entry("same-now", nowhere), "verdicts", {}), (Entry("same-now", nowhere), "", listed), (Entry("same-now", FOUND), "verdicts", listed),
        ):
            with self.subTest(entry), mock.patch.object(lock.weak, "listed", lambda _, it=of_list: it):
                found = lock.staleness("same", entry and entry._replace(verdicts=set(entry.verdicts)))
                self.assertTrue(wanted in found if wanted else found == "", found)

    def test_a_line_with_a_sum_alone_is(self):
        write_file(lock.LOCK, "good good-then\nsame same-now\n")
        self.assertIn("verdicts", lock.staleness("same", lock.read()["same"]))


class Draw(WithLock):
    """The gate over a lock whose entries are all as they have to be, but one that was written by hand."""

    def setUp(self):
        super().setUp()
        self.patch(lock, "sum_of", SUMS.get)

    def test_ten_commits_in_a_row_draw_each_crate_once(self):
        drawn = []
        for self.number in range(613, 623):
            drawn += draw.drawn(list(SUMS))[0]
        self.assertEqual(sorted(drawn), sorted(SUMS))

    def test_a_mutant_that_is_not_refused_is_found_in_ten_commits(self):
        """The sum and the verdicts of `bad` are as if a trial had been made."""
        self.put({it: Entry(sum, FOUND) for it, sum in SUMS.items() if it != "broken"})
        statuses = [self.gate_at(number, "one: NOT REFUSED") for number in range(613, 623)]
        self.assertEqual(statuses.count(True), 1)

    def test_a_verdict_that_says_another_function_is_found_in_ten_commits(self):
        wrong = FOUND - {("two", "T::h", "goal")} | {("two", "g", "goal")}
        self.put({it: Entry(sum, wrong if it == "good" else FOUND) for it, sum in SUMS.items()})
        statuses = [self.gate_at(number, "mutants.lock says that g refuses it, and it was T::h") for number in range(613, 623)]
        self.assertEqual(statuses.count(True), 1)

    def gate_at(self, number, text):
        """Returns whether the gate at a commit fails with this text."""
        self.number = number
        return bool(self.ran("--gate")) and text in self.said

    def test_without_a_history_the_sum_of_the_tree_draws(self):
        self.number = None
        group, by = draw.drawn(list(SUMS))
        self.assertIn("sum of the tree", by)
        self.assertTrue(set(group) <= set(SUMS))

    def test_groups_are_of_about_one_cost(self):
        costs = {f"c{at}": at for at in range(1, 48)}
        sums = [sum(costs[it] for it in group) for group in draw.groups(costs)]
        self.assertLess(max(sums) - min(sums), 20)


class Number(unittest.TestCase):
    """The number of the commit, in repositories made for it."""

    def git(self, *words, at):
        who = ("-c", "user.name=x", "-c", "user.email=x", "-c", "protocol.file.allow=always")
        subprocess.run(["git", *who, *words], cwd=at, check=True, stdout=subprocess.DEVNULL, stderr=subprocess.DEVNULL)

    def test_it_counts_commits_of_a_whole_checkout_alone(self):
        with tempfile.TemporaryDirectory() as room:
            for folder in ("whole", "none", "whole/inside"):
                os.makedirs(f"{room}/{folder}")
            self.git("init", "-q", at=f"{room}/whole")
            for _ in range(3):
                self.git("commit", "-q", "--allow-empty", "-m", "x", at=f"{room}/whole")
            self.git("clone", "-q", "--depth=1", f"file://{room}/whole", "shallow", at=room)
            found = {}
            for folder in ("whole", "shallow", "none", "whole/inside"):
                with mock.patch.object(draw, "TOP", f"{room}/{folder}"):
                    found[folder] = draw.commit_number()
        self.assertEqual(found, {"whole": 3, "shallow": None, "none": None, "whole/inside": None})


class Modules(unittest.TestCase):
    """Which modules of the tools are a part of each sum."""

    # Modules that print, put steps in an order, or choose the crates that are tried.
    OTHERS = ["dt_commands/shared/lanes.py", "dt_commands/shared/progress.py"]
    OTHERS += ["dt_mutants/draw.py", "dt_mutants/progress.py", "dt_mutants/selftest.py"]

    def imported(self, module):
        """Returns the modules of the tools that one imports, by their paths."""
        found = [it for it in ast.walk(ast.parse(read_text(f"{TOP}/tools/{module}"))) if isinstance(it, (ast.Import, ast.ImportFrom))]
        names = [name.name for it in found if isinstance(it, ast.Import) for name in it.names]
        for it in found:
            names += [f"{it.module}.{name.name}" for name in it.names] + [it.module] if isinstance(it, ast.ImportFrom) else []
        paths = [it.replace(".", "/") for it in names]
        found = [glob.glob(f"{TOP}/tools/{os.path.dirname(it)}/**/{os.path.basename(it)}.py", recursive=True) for it in paths if "/" in it]
        return [os.path.relpath(it, f"{TOP}/tools") for of in found for it in of]

    def reached(self, *new):
        found, new = set(), list(new)
        while new:
            found.update(new)
            new = [it for module in new for it in self.imported(module) if it not in found]
        return found

    def test_each_that_decides_or_carries_out_a_round_is(self):
        self.assertEqual(sorted(self.reached("dt_mutants/trials.py") - set(lock.MODULES)), [])
        self.assertEqual(sorted(self.reached("dt_commands/mutants.py") - set(lock.MODULES)), self.OTHERS)
        self.assertTrue(all(os.path.isfile(f"{TOP}/tools/{it}") for it in lock.MODULES))


class FakeKept:
    """What the toolchain keeps: of each crate, under the sum of its sources and of what is below it, the sums of its library's files."""

    def __init__(self, crates):
        self.sums = []

    def is_built(self, crate):
        self.sums.append(sum_of(f"{crate.rlib}/format"))

    def key(self, crate):
        return "+".join([sum_of(f"{os.path.dirname(crate.folder)}/{it}/src/lib.rt") for it in crate.names] + self.sums[:-1])

    def place(self, crate, tests, key):
        return f"{crate.folder}/../../kept/{crate.name}-{key}"

    def made(self, crate, tests):
        return [f"rlib/{crate.name}.rlib/format"]


def sum_of(file):
    return read_text(file).replace("/", "_")


class Libraries(WithRoom):
    """Which libraries that rt ci left count as those of the sources: of a crate, and of one below it."""

    def setUp(self):
        super().setUp()
        self.top = self.room
        self.rt = types.SimpleNamespace(Crate=types.SimpleNamespace(), handles_of=lambda _: (), Kept=FakeKept, rtlib=types.SimpleNamespace(sum_of=sum_of))
        fake_kit = types.SimpleNamespace(has_foreign_libraries=lambda _: True, loaded=lambda: self.rt)
        for name, fake in (("TOP", self.top), ("below", lambda name: ["low", "high"][: 1 + (name == "high")]), ("kit", fake_kit)):
            self.patch(left, name, fake)
        for it in ("low", "high"):
            self.write(f"crates/{it}/src/lib.rt")
            self.write(f"crates/{it}/proofs/one/Proof.antt")
        self.crates = [self.crate("low", ["low"]), self.crate("high", ["low", "high"])]
        for it in self.crates:
            self.write(f"crates/{it.name}/out/rlib/{it.name}.rlib/format")

    def crate(self, name, names):
        folder = f"{self.top}/crates/{name}"
        return types.SimpleNamespace(name=name, names=names, folder=folder, rlib=f"{folder}/out/rlib/{name}.rlib")

    def write(self, file, text=None):
        # (times have steps of some milliseconds)
        time.sleep(0.02)
        super().write(file, text or file)

    def serve(self):
        return left.serves(types.SimpleNamespace(below=lambda: self.crates))

    def test_those_that_came_after_their_sources_do(self):
        self.assertTrue(self.serve())

    def test_one_whose_source_or_whose_dependencys_source_changed_does_not(self):
        self.write("crates/high/src/lib.rt")
        self.assertFalse(self.serve())
        self.write("crates/high/out/rlib/high.rlib/checked.a")
        self.assertTrue(self.serve())
        self.write("crates/low/src/lib.rt")
        self.assertFalse(self.serve())

    def test_one_whose_proof_went_does_not(self):
        time.sleep(0.02)
        os.remove(f"{self.top}/crates/low/proofs/one/Proof.antt")
        self.assertFalse(self.serve())

    def test_another_checkout_that_takes_its_files_makes_it_no_newer(self):
        self.write("crates/low/src/lib.rt")
        time.sleep(0.02)
        os.link(f"{self.crates[0].rlib}/format", f"{self.top}/format")
        self.assertFalse(self.serve())

    def keep(self):
        """Has the toolchain keep the libraries as they are."""
        kept = FakeKept(self.crates)
        for it in self.crates:
            kept.is_built(it)
            files = [[file, sum_of(f"{it.folder}/out/{file}")] for file in kept.made(it, False)]
            self.write(os.path.relpath(f"{kept.place(it, False, kept.key(it))}/made.json", self.top), json.dumps({"files": files}))

    def test_older_ones_do_if_they_are_kept_as_proved_of_the_sources(self):
        self.keep()
        self.write("crates/low/src/lib.rt", "crates/low/src/lib.rt")
        self.assertTrue(self.serve())
        self.rt.Kept = None
        self.assertFalse(self.serve())

    def test_older_ones_do_not_if_others_are_kept(self):
        self.keep()
        self.write("crates/low/src/lib.rt", "other")
        self.assertFalse(self.serve())
        self.write("crates/low/src/lib.rt", "crates/low/src/lib.rt")
        self.assertTrue(self.serve())
        self.write("crates/high/out/rlib/high.rlib/format", "other")
        self.assertFalse(self.serve())
