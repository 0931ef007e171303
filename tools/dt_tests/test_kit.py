"""Tests of the gate's part on what users of C run: its stamps and shares, a part that tried nothing, and packages that are missing."""
import contextlib
import io
import os
import tempfile
import unittest
from unittest import mock

from dt_commands import c_samples, guest_runs, guest_tests, kit_tests, packages, self_test
from dt_commands.kit_tests import Part, Session
from dt_commands.repository import TOP
from dt_commands.texts import write_file
from rooms import WithRoom

PARTS = [Part("one", ["test", "one"], 2, []), Part("two", ["test", "two"], 1, [])]


class Stamps(WithRoom):
    def setUp(self):
        super().setUp()
        self.set(XDG_CACHE_HOME=self.room)
        self.sums, self.made = {"one": "1", "two": "2"}, []
        self.answers = {"one": (0, "3 things\n"), "two": (0, "5 things\n")}

    def call(self, words):
        self.made.append(words)
        return self.answers[words[1]]

    def run_once(self, does=None, is_anew=False):
        """Makes the parts, and returns the status, which calls were made, and what was said."""
        self.made.clear()
        with contextlib.redirect_stdout(io.StringIO()) as out:
            status = Session(PARTS, does or self.call, lambda: dict(self.sums)).run(1, is_anew)
        return status, [" ".join(it) for it in self.made], out.getvalue()

    def test_each_share_of_each_part_is_made(self):
        status, made, said = self.run_once()
        self.assertEqual((status, made), (0, ["test one --share 1/2", "test one --share 2/2", "test two"]))
        self.assertIn("2 parts of the C kit made, 0 unchanged, 0 failed", said)

    def test_what_was_green_with_the_same_sum_is_skipped_and_told(self):
        self.run_once()
        status, made, said = self.run_once()
        self.assertEqual((status, made), (0, []))
        self.assertIn("one: unchanged since it was green: 6 things\n", said)
        self.assertEqual(len(self.run_once(is_anew=True)[1]), 3)

    def test_another_sum_makes_its_part_again(self):
        self.run_once()
        self.sums["two"] = "3"
        self.assertEqual(self.run_once()[1], ["test two"])
        self.sums["two"] = "2"
        self.assertEqual(self.run_once()[1], [])

    def test_a_part_that_fails_fails_the_gate_and_gets_no_stamp(self):
        self.answers["two"] = (1, "a failure\n")
        status, _, said = self.run_once()
        self.assertEqual(status, 1)
        self.assertIn("two: FAILED\na failure\n", said)
        self.assertEqual(self.run_once()[1], ["test two"])

    def test_a_part_that_tried_nothing_fails(self):
        for said in ("0 things\n", "all well\n", ""):
            self.answers["two"] = (0, said)
            self.assertEqual(self.run_once()[0], 1)

    def test_files_that_change_meanwhile_leave_no_stamp(self):
        def changes(words):
            self.sums["two"] = "3"
            return self.call(words)

        self.assertEqual(self.run_once(changes)[0], 0)
        self.assertEqual(self.run_once()[1], ["test two"])

    def test_a_kit_without_parts_fails(self):
        with contextlib.redirect_stdout(io.StringIO()):
            self.assertEqual(Session([], self.call, dict).run(1), 1)


class Sums(unittest.TestCase):
    def test_a_sum_is_of_the_files_the_words_and_the_machine(self):
        part = kit_tests.PARTS[0]
        before = kit_tests.sum_of(part, ["a"])
        self.assertEqual(kit_tests.sum_of(part, ["a"]), before)
        others = [kit_tests.sum_of(part, ["b"]), kit_tests.sum_of(part._replace(words=["test"]), ["a"]),
                  kit_tests.sum_of(part._replace(reads=[]), ["a"])]
        self.assertEqual(len({before, *others}), 4)

    def test_it_covers_library_headers_tests_wanted_outputs_and_tools(self):
        def read(name):
            part = next(it for it in kit_tests.PARTS if it.name == name)
            return {file for it in (*kit_tests.COMMON, *part.reads) for file in kit_tests.files_below(it)}

        wanted = {"guest/library/threads", "guest/library/files", "guest/include", "tools/dt_commands", "guest/tests"}
        self.assertTrue(wanted <= {os.path.dirname(it) for it in read("guest programs")})
        self.assertTrue({"guest/dthreads-cc", "guest/packages", "guest/link.ld", "tools/dt", "guest/tests/list"} <= read("guest programs"))
        self.assertFalse([it for it in read("guest programs") if it.startswith(("guest/out", "guest/tests/gdb"))])
        self.assertTrue([it for it in read("sessions of gdb") if it.startswith("guest/tests/gdb/") and it.endswith(".session")])
        for part in kit_tests.PARTS:
            for it in part.reads:
                self.assertTrue(list(kit_tests.files_below(it)), f"{part.name} reads {it}")

    def test_the_program_and_the_compiler_are_a_part_of_it(self):
        with tempfile.TemporaryDirectory() as room:
            found = []
            for text in ("one", "two"):
                write_file(f"{room}/dthreads", text)
                with mock.patch.dict(os.environ, {"DTHREADS": f"{room}/dthreads"}):
                    found.append(list(kit_tests.machine()))
            self.assertNotEqual(*found)

    def test_stamps_are_outside_of_the_checkout(self):
        with mock.patch.dict(os.environ, {"XDG_CACHE_HOME": ""}):
            self.assertFalse(kit_tests.stamp_of("1").startswith(TOP))


class Counts(unittest.TestCase):
    def test_shares_are_disjoint_and_have_all(self):
        every = list(range(11))
        found = [guest_runs.share(f"{it}/4", every) for it in (1, 2, 3, 4)]
        self.assertEqual(sorted(sum(found, [])), every)
        for text in ("0/4", "5/4"):
            self.assertRaises(SystemExit, guest_runs.share, text, every)

    def test_a_tally_of_nothing_fails(self):
        with contextlib.redirect_stderr(io.StringIO()) as said:
            self.assertEqual(guest_runs.Tally().status("programs", ""), 1)
        self.assertEqual(said.getvalue(), "no programs were tried\n")

    def test_no_program_that_must_not_build_is_a_failure(self):
        with mock.patch.object(guest_tests.glob, "glob", return_value=[]):
            self.assertRaises(SystemExit, guest_tests.tasks, [])
        self.assertIn("exec", [name for name, _ in guest_tests.tasks([])])

    def test_no_tests_of_the_tools_and_skipped_ones_are_failures(self):
        for listed, ran, is_all, status in (([], ([], 0), False, 1), ([1], ([], 1), False, 0), ([1], ([], 1), True, 1), ([1], ([], 0), True, 0)):
            options = mock.Mock(names=[], lanes=1, all=is_all)
            with mock.patch.object(self_test, "listed", return_value=listed), mock.patch.object(self_test, "run_all", return_value=ran):
                with mock.patch.object(self_test, "TESTS", []), contextlib.redirect_stdout(io.StringIO()):
                    self.assertEqual(self_test.run(options), status)

    def test_no_samples_in_c_are_a_failure(self):
        with mock.patch.object(c_samples, "samples", return_value=[]):
            with contextlib.redirect_stdout(io.StringIO()), contextlib.redirect_stderr(io.StringIO()):
                self.assertEqual(c_samples.check(None), 1)


class Packages(unittest.TestCase):
    NEEDED = {"here": "sh", "missing": "no-such-command", "file": "/no/such/file"}

    def see(self, is_root, needed=None):
        asked = []
        with mock.patch.object(packages, "install", asked.append), contextlib.redirect_stderr(io.StringIO()) as said:
            with mock.patch.object(packages.shutil, "which", lambda it: it in ("sh", "apt-get") and f"/bin/{it}" or None):
                with contextlib.redirect_stdout(io.StringIO()):
                    return packages.see(is_root, needed or self.NEEDED), asked, said.getvalue()

    def test_without_root_they_are_named_and_it_fails(self):
        status, asked, said = self.see(False)
        self.assertEqual((status, asked), (1, []))
        self.assertIn("missing are missing file: apt-get install missing file", said)

    def test_root_gets_them_installed_and_what_is_still_missing_fails(self):
        status, asked, said = self.see(True)
        self.assertEqual((status, asked), (1, [["missing", "file"]]))
        self.assertIn("missing are missing file", said)

    def test_nothing_is_installed_if_all_are_there(self):
        self.assertEqual(self.see(True, {"here": "sh"}), (0, [], ""))

    def test_the_compiler_has_the_versions_of_the_samples(self):
        calls = []
        with mock.patch.object(packages.subprocess, "run", lambda words, **_: calls.append(words) or mock.Mock(returncode=0)):
            self.assertTrue(packages.install(["gcc-riscv64-unknown-elf", "gdb-multiarch"]))
        self.assertEqual([it[:2] for it in calls], [["apt-get", "update"], ["apt-get", "install"]])
        self.assertEqual(calls[1][-2:], [f"gcc-riscv64-unknown-elf={packages.versions()['gcc-riscv64-unknown-elf']}", "gdb-multiarch"])

    def test_each_package_of_the_kit_is_seen_to(self):
        self.assertTrue(set(packages.versions()) <= set(packages.NEEDED))
