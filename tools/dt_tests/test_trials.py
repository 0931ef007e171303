"""Tests of how a crate's rounds are tried, over a check that is a fake: it knows which texts compile, and which are refused."""
import os
import re
import tempfile
import types
import unittest
from unittest import mock

from dt_commands import kit
from dt_commands.texts import write_file
from dt_mutants import trials
from dt_mutants.edits import edits_of

NAMES = ("one", "two", "three", "four", "five")


def source():
    return "".join(f"fn {name}() -> u32 {{\n    {at}00\n}}\n" for at, name in enumerate(NAMES, 1))


class FakeKit:
    """Judges a text: 'bad' doesn't compile, 'same' is proved, 'hidden' is refused without a word of its function, 'long' and 'endless' meet
    a limit, the first only without more room, any other is refused."""

    MORE_ROOM = ("--room",)

    def __init__(self):
        self.checks, self.is_seed_changed = [], False

    def linked(self, folder, to):
        os.makedirs(f"{to}/kept", exist_ok=True)

    def listing(self, folder):
        return {"changed": self.is_seed_changed and len(self.checks) > 1}

    def is_unread(self, line, texts):
        return False

    def check(self, crate, texts, kept):
        text = texts.get("src/lib.rt", source())
        self.checks.append(text)
        bodies = re.findall(r"fn (\w+)\(\) -> u32 \{\n    (.*)\n", text)
        for at, (_, body) in enumerate(bodies):
            if body == "bad":
                return f"src/lib.rt:{3 * at + 2}:5: error[unresolved-name]: no `bad`\n", 1
        if any(body in ("long", "endless") for _, body in bodies):
            return "rattle: no verdict: out of steps\n", 3
        changed = [(at, name) for at, (name, body) in enumerate(bodies) if body not in (f"{at + 1}00", "same", "hidden")]
        lines = [f"note: src/lib.rt:{3 * at + 1}:1: it is not proved that x (`g`)\nfn small::{name}: no proof: `search` did not prove `g`" for at, name in changed]
        is_proved = not changed and "hidden" not in text
        return "\n".join([*lines, "logic=proved" if is_proved else "logic=not-proved", ""]), 0 if is_proved else 1

    def try_alone(self, crate, file, kept, more=()):
        edit = next(it for it in edits_of("small", crate.folder) if it.file == file)
        texts = {path: text.replace("long", "x") if more else text for path, text in edit.changes.items()}
        said, status = self.check(crate, texts, kept)
        kind = {0: kit.MISSED, 1: kit.REFUSED, 3: kit.LIMIT}[status]
        kind = kit.BAD if "error[" in said else kind
        return kind, "told", said


class Kits(unittest.TestCase):
    """What the toolchains' tries of one edit come to: some answer a kind, others whether the edit was refused."""

    def test_an_answer_of_yes_or_no_is_told_by_its_text(self):
        rt = types.SimpleNamespace()
        for answer, text, kind in (
            (True, "refused, as it must be: a goal", kit.REFUSED),
            (False, "NOT REFUSED: the crate is still proved with this edit", kit.MISSED),
            (False, "BAD EDIT: there is no file src/other.rt", kit.BAD),
        ):
            self.assertEqual(kit.kind_of(rt, answer, text), kind)

    def test_a_kind_is_the_one_of_its_name(self):
        rt = types.SimpleNamespace(REFUSED=0, AT_LIMIT=1, BAD=2, UNSURE=3, MISSED=4)
        kinds = [kit.kind_of(rt, it, "") for it in range(6)]
        self.assertEqual(kinds, [kit.REFUSED, kit.LIMIT, kit.BAD, kit.UNSURE, kit.MISSED, kit.UNSURE])

    def test_a_copy_of_kept_work_shares_what_was_checked_alone(self):
        with tempfile.TemporaryDirectory() as room:
            os.makedirs(f"{room}/kept/of_kit")
            for it in ("module.oantt", "rattle-last-used"):
                open(f"{room}/kept/of_kit/{it}", "w").close()
            kit.linked(f"{room}/kept", f"{room}/copy")
            shared = [os.path.samefile(f"{room}/kept/of_kit/{it}", f"{room}/copy/of_kit/{it}") for it in ("module.oantt", "rattle-last-used")]
            before = kit.listing(f"{room}/kept")
            os.utime(f"{room}/copy/of_kit/rattle-last-used", (1, 1))
            self.assertEqual((shared, kit.listing(f"{room}/kept")), ([True, False], before))


class Trials(unittest.TestCase):
    def tried(self, bodies, **how):
        """Tries one edit a function, each by its new body, and returns what each came to, how many checks there were, and the trial."""
        with tempfile.TemporaryDirectory() as folder:
            for part in ("src", "mutants", *(["out/incremental"] if how.get("keeps") else [])):
                os.makedirs(f"{folder}/{part}")
            write_file(f"{folder}/src/lib.rt", source())
            for at, (name, body) in enumerate(zip(NAMES, bodies), 1):
                write_file(f"{folder}/mutants/{name}.edit", f"file: src/lib.rt\nold: {at}00\nnew: {body}\n")
            fake = FakeKit()
            fake.is_seed_changed = how.get("is_seed_changed", False)
            with mock.patch.object(trials, "kit", fake), mock.patch.object(trials.weak, "lines_of", lambda _: how.get("listed", {})):
                crate = types.SimpleNamespace(folder=folder, name="small")
                trial = trials.Trial(crate, edits_of("small", folder), lambda *_: None, how.get("is_proved", False))
                steps = trial.begin()
                while steps:
                    steps = steps[1:] + steps[0]()
                trial.end()
        return [trial.results[it][0] for it in trial.edits], len(fake.checks), trial

    def named(self, bodies):
        """The edits are in the order of their names; this gives them in that of the functions."""
        found, checks, trial = self.tried(bodies)
        by_name = {it.name: kind for it, kind in zip(trial.edits, found)}
        return [by_name[it] for it in NAMES], checks

    def test_all_are_refused_in_one_check(self):
        self.assertEqual(self.named(["x", "x", "x", "x", "x"]), (["refused"] * 5, 2))

    def test_one_that_means_the_same_is_not_refused(self):
        found, checks = self.named(["x", "x", "same", "x", "x"])
        self.assertEqual(found, ["refused", "refused", "not refused", "refused", "refused"])
        self.assertEqual(checks, 4)

    def test_one_that_does_not_compile_spoils_nothing(self):
        found, _ = self.named(["x", "bad", "x", "same", "x"])
        self.assertEqual(found, ["refused", "bad", "refused", "not refused", "refused"])

    def test_two_that_do_not_compile_are_both_found(self):
        found, _ = self.named(["bad", "x", "x", "bad", "x"])
        self.assertEqual(found, ["bad", "refused", "refused", "bad", "refused"])

    def test_what_does_not_apply_is_bad_without_a_check(self):
        found, checks, trial = self.tried(["100", "x", "x", "x", "x"])
        self.assertEqual(sorted(found), ["bad", *["refused"] * 4])
        self.assertEqual((checks, [it[0].name for it in trial.failed]), (2, ["one"]))

    def came_to(self, bodies, **how):
        """Returns the edits that failed with their kinds, and the verdicts, by the edits' names."""
        trial = self.tried(bodies, **how)[2]
        return [(it.name, kind) for it, kind, _ in trial.failed], {it.edit.name: it[1:] for it in trial.verdicts}

    def test_each_verdict_has_a_function_and_a_goal(self):
        self.assertEqual(self.came_to(["x"] * 5), ([], {it: (it, "g") for it in NAMES}))

    def test_one_that_no_goal_of_its_own_refuses_fails_unless_it_is_listed(self):
        failed, verdicts = self.came_to(["x", "hidden", "x", "x", "x"])
        self.assertEqual((failed, "two" in verdicts), ([("two", trials.WEAK)], False))
        failed, verdicts = self.came_to(["x", "hidden", "x", "x", "x"], listed={"two": "a table of names"})
        self.assertEqual((failed, verdicts["two"]), ([], trials.NOWHERE))

    def test_one_that_no_goal_of_its_own_refuses_is_told_of_a_crate_that_is_to_be_looked_at(self):
        _, _, trial = self.tried(["x", "hidden", "same", "x", "x"], listed={"*": "not seen yet"})
        self.assertEqual([it.name for it, _ in trial.told], ["two"])
        self.assertEqual([(it.name, kind) for it, kind, _ in trial.failed], [("three", "not refused")])

    def test_one_that_is_listed_and_that_a_goal_refuses_fails(self):
        failed, _ = self.came_to(["x"] * 5, listed={"two": "a table of names"})
        self.assertEqual(failed, [("two", trials.LISTED)])

    def test_one_at_a_limit_is_tried_with_more_room_or_fails(self):
        self.assertEqual(self.came_to(["x", "long", "x", "x", "x"])[0], [])
        failed, verdicts = self.came_to(["x", "endless", "x", "x", "x"])
        self.assertEqual((failed, "two" in verdicts), ([("two", kit.LIMIT)], False))

    def test_what_a_check_just_proved_is_not_checked_again(self):
        self.assertEqual(self.tried(["x"] * 5, is_proved=True, keeps=True)[1], 1)
        self.assertEqual(self.tried(["x"] * 5, is_proved=True)[1], 2)

    def test_a_check_that_writes_into_the_seed_fails_the_trial(self):
        self.assertIn("changed meanwhile", self.tried(["x"] * 5, is_seed_changed=True)[2].failure)
