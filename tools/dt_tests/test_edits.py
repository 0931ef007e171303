"""Looks at the edits of the repository itself: each can be made, and those in must-fail/ are of wrong bodies that have a name."""
import os
import re
import unittest

from dt_commands.repository import TOP
from dt_commands.texts import read_text
from dt_mutants import weak
from dt_mutants.edits import edits_of


def folders():
    return [f"{TOP}/crates/{it}" for it in sorted(os.listdir(f"{TOP}/crates"))]


class Edits(unittest.TestCase):
    def test_each_can_be_made(self):
        edits = [it for at in folders() for kind in ("mutants", "must-fail") for it in edits_of(os.path.basename(at), at, kind)]
        self.assertEqual([f"{it}: {it.why}" for it in edits if it.why], [])

    def test_each_that_may_be_refused_by_no_goal_is_there_and_says_why(self):
        with open(weak.LIST, encoding="utf-8") as it:
            count = sum(1 for line in it if line.strip() and not line.startswith("#") and "/*:" not in line)
        listed = {os.path.basename(at): weak.listed(os.path.basename(at)) for at in folders()}
        there = [why for at in folders() for it in edits_of(os.path.basename(at), at, "mutants") for why in [listed[it.crate].get(it.name)] if why]
        self.assertEqual(len(there), count)

    def test_must_fail_has_wrong_bodies_with_a_name_alone(self):
        table = read_text(f"{TOP}/docs/CONFORMANCE.md").partition("## Wrong bodies with a name")[2].partition("\n## ")[0]
        named = re.findall(r"`(\w+/\w+)`", table)
        found = [repr(it) for at in folders() for it in edits_of(os.path.basename(at), at, "must-fail")]
        others = [repr(it) for at in folders() for it in edits_of(os.path.basename(at), at, "mutants")]
        self.assertEqual(sorted(set(found) - set(named)), [])
        self.assertEqual(sorted(set(named) - set(found) - set(others)), [])
