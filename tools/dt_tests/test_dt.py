"""Tests of the entry: each command and each part has a help, and words go to the part that they name."""
import contextlib
import importlib.machinery
import importlib.util
import io
import os
import unittest
from collections import namedtuple
from unittest import mock

from dt_commands import self_test
from dt_commands.repository import TOP

PARTS = {
    "check": ["sources", "clauses", "layers", "pages", "samples", "pictures", "c-samples", "c-functions"],
    "test": ["c-samples", "guest", "manual", "c-page", "real", "openmp", "nptl", "timeline", "kit", "package", "build-tools", "course"],
    "sweep": ["memory", "changes", "floats"],
    "measure": ["workers", "c-samples", "library", "debugger", "start"],
    "write": ["pages", "samples", "pictures", "c-samples", "c-functions", "course"],
}
ALONE = ["mutants", "digest", "picture", "build", "release", "install", "package", "packages", "self-test"]


LOADER = importlib.machinery.SourceFileLoader("dt", f"{TOP}/tools/dt")
DT = importlib.util.module_from_spec(importlib.util.spec_from_loader("dt", LOADER))
LOADER.exec_module(DT)
Ran = namedtuple("Ran", "returncode stdout stderr")


def ran(*words):
    """Returns what a call of tools/dt gives."""
    with contextlib.redirect_stdout(io.StringIO()) as out, contextlib.redirect_stderr(io.StringIO()) as errors:
        try:
            status = DT.main(list(words))
        except SystemExit as end:
            status = end.code
    return Ran(status, out.getvalue(), errors.getvalue())


class Help(unittest.TestCase):
    def test_the_overview_lists_each_command_and_each_part(self):
        lines = [it.strip() for it in ran("--help").stdout.split("\n")]
        for name in [*PARTS, *ALONE, *(f"{name} {part}" for name, parts in PARTS.items() for part in parts)]:
            with self.subTest(name):
                self.assertTrue(any(it.startswith(f"{name}  ") for it in lines))

    def test_each_has_a_help_that_begins_with_what_it_does(self):
        calls = [[name] for name in [*PARTS, *ALONE]] + [[name, part] for name, parts in PARTS.items() for part in parts]
        for words in calls:
            with self.subTest(words):
                shown = ran(*words, "--help")
                self.assertEqual((shown.returncode, shown.stderr), (0, ""))
                self.assertTrue(shown.stdout.startswith(f"usage: tools/dt {' '.join(words)} "))
                self.assertRegex(shown.stdout.split("\n\n")[1], r"^[A-Z][^\n]*[.:,\w]\n?")

    def test_no_file_of_the_tools_is_a_second_entry(self):
        runnable = [it for it in sorted(os.listdir(f"{TOP}/tools")) if os.path.isfile(f"{TOP}/tools/{it}") and os.access(f"{TOP}/tools/{it}", os.X_OK)]
        self.assertEqual(runnable, ["dt", "list-sources"])


class Words(unittest.TestCase):
    def test_without_words_the_overview_is_shown_and_the_status_is_2(self):
        self.assertEqual(ran().returncode, 2)
        self.assertEqual(ran().stdout, ran("--help").stdout)

    def test_an_unknown_command_is_told_in_a_line(self):
        self.assertEqual((ran("mend").returncode, ran("mend").stderr.count("\n")), (2, 1))

    def test_a_command_that_needs_a_part_shows_its_parts(self):
        shown = ran("write")
        self.assertEqual(shown.returncode, 2)
        self.assertIn("write pages", shown.stdout)

    def test_an_unknown_word_is_refused(self):
        self.assertEqual(ran("check", "nothing").returncode, 2)
        self.assertEqual(ran("check", "layers", "more").returncode, 2)

    def test_a_part_is_called(self):
        self.assertIn("breaks of the layers", ran("check", "layers").stdout)


class Sample(unittest.TestCase):
    """Tests of which it is known what comes of each. No loader finds them by their names."""

    def passes(self):
        pass

    def fails(self):
        for it in (1, 2, 3):
            with self.subTest(it):
                self.assertEqual(it, 2)

    def stops(self):
        raise KeyError("no such thing")

    @unittest.expectedFailure
    def passes_and_was_to_fail(self):
        pass

    @unittest.skip("it is not for this machine")
    def is_skipped(self):
        self.fail()


class SelfTest(unittest.TestCase):
    def outcomes(self, begin=self_test.begin):
        names = ["passes", "fails", "stops", "passes_and_was_to_fail", "is_skipped"]
        with mock.patch.object(self_test, "TESTS", [Sample(it) for it in names]), mock.patch.object(self_test, "begin", begin):
            with contextlib.redirect_stdout(io.StringIO()) as out:
                failed, skipped = self_test.run_all(2)
        self.assertEqual(out.getvalue().count("FAILED: "), 4)
        found = {name: sum(it.startswith(f"{name} ") for it in failed) for name in names}
        self.assertEqual((found, skipped), ({"passes": 0, "fails": 2, "stops": 1, "passes_and_was_to_fail": 1, "is_skipped": 0}, 1))

    def test_what_fails_in_another_process_is_told(self):
        self.outcomes()

    def test_without_such_processes_the_tests_run_all_the_same(self):
        self.outcomes(begin=lambda _: (None, {}))
