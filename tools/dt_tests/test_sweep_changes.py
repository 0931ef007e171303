"""Tests of the sweep of changes: one that no row refuses survives. What the crates with rows say is made up."""
import contextlib
import io
import types
import unittest
from unittest import mock

from dt_commands import sweep_changes
from dt_commands.changes import Change

OPTIONS = types.SimpleNamespace(seconds=1, lanes=2, show=False)
# Two changes of rows of programs, and one of a test.
NAMES = ["cause-0-is-8", "phases-from-0", "fetch-value-is-0"]


def rows(said):
    """Makes programs say so: `said` has the texts of the cases of each program."""
    return lambda program, found, folder, seconds: ({it: ("FAILED" if text else "ok", text) for it, text in said[program].items()}, "")


def tests(said):
    """Makes a crate's tests say so."""
    return lambda crate, seconds: ({name: ("FAILED" if text else "ok", text) for name, text in said.items()}, "")


class Sweeps(unittest.TestCase):
    def swept(self, parts, runs, said):
        """Returns the status of a sweep of `NAMES` and what it prints, if the crates with rows say so."""
        found, printed = [Change(it) for it in NAMES], io.StringIO()
        with (
            contextlib.redirect_stdout(printed), mock.patch.object(sweep_changes, "copy"),
            mock.patch.object(sweep_changes, "attempt_rows", rows({"test_parts": parts, "test_guest_runs": runs})),
            mock.patch.object(sweep_changes, "attempt_tests", tests({f"{found[2].row.rsplit('::', 1)[0]}::{it}": said[it] for it in said})),
        ):
            return sweep_changes.tried(found, OPTIONS), printed.getvalue()

    def test_passes_if_each_is_refused(self):
        status, said = self.swept({0: "", 1: "causes"}, {0: "", 2: "trace"}, {"change_3": "fffc"})
        self.assertEqual((status, said), (0, "3 changes tried, 0 survive\n"))

    def test_fails_if_one_survives(self):
        status, said = self.swept({0: "", 1: ""}, {0: "", 2: "trace"}, {"change_3": "fffc"})
        self.assertEqual(status, 1)
        self.assertIn("survives: cause-0-is-8 (test_parts::causes have their numbers)", said)

    def test_fails_if_one_is_not_run(self):
        status, said = self.swept({0: "", 1: "causes"}, {0: "", 2: "trace"}, {})
        self.assertEqual(status, 1)
        self.assertIn("survives: fetch-value-is-0", said)

    def test_fails_if_another_row_refuses_it(self):
        status, said = self.swept({0: "", 1: "causes"}, {0: "", 2: "trace"}, {"change_3": "20000"})
        self.assertEqual(status, 1)
        self.assertIn("refused by another row: fetch-value-is-0", said)

    def test_fails_if_a_row_fails_with_no_change(self):
        status, said = self.swept({0: "causes", 1: "causes"}, {0: "", 2: "trace"}, {"change_3": "fffc", "a_test": "fails"})
        self.assertEqual(status, 1)
        self.assertIn("fails with no change: test_parts: causes", said)
        self.assertIn("::a_test", said)

    def test_a_limit_is_no_refusal(self):
        said = "== change_1\nrace: trace\ncase=change_1 run=ended status=0\n== change_2\ncase=change_2 run=no-answer proved=no\n"
        self.assertEqual([sweep_changes.cases_in(said)[it][0] for it in (1, 2)], ["FAILED", "no answer"])
