"""Tests of how `tools/dt test` reads what `rt try` says, and of what it calls a failure."""
import os
import unittest
from unittest import mock

from dt_commands import test
from dt_commands.repository import TOP, crates
from dt_commands.texts import read_text
from rooms import WithRoom, data

SAID = data("try.txt")
ENDED = "checked: ended status=7\nrun=ended status=7 runners=1 races=unchecked proved=no\n"


class Tests(unittest.TestCase):
    def test_each_failed_test_is_named_with_what_it_said(self):
        found = test.of_tests(SAID, 4)
        self.assertEqual(found.passed, 1)
        self.assertEqual([name for name, _ in found.failures], ["tests::beyond", "tests::long"])
        self.assertIn("index-out-of-bounds", found.failures[0][1][0])
        self.assertIn("did not end within the time limit", found.failures[1][1][0])

    def test_all_pass(self):
        found = test.of_tests("tests: 1\ntest a ... ok\nrun=ended status=0 runners=1 proved=no\n", 0)
        self.assertEqual((found.passed, found.failures), (1, []))

    def test_tests_that_do_not_compile_are_a_failure(self):
        found = test.of_tests("src/tests.rt:16:17: error[unknown-method]: no method named `args`\nrun=none proved=no\n", 1)
        self.assertEqual(found.passed, 0)
        self.assertEqual(found.failures[0][0], "its tests did not run")
        self.assertIn("unknown-method", found.failures[0][1][0])

    def test_a_status_that_no_test_explains_is_a_failure(self):
        self.assertTrue(test.of_tests("tests: 1\ntest a ... ok\n", 2).failures)


class Programs(WithRoom):
    def setUp(self):
        super().setUp()
        self.folder = self.room

    def test_output_and_status_are_the_wanted_ones(self):
        self.write("stdout", "one\ntwo\n")
        self.write("status", "7\n")
        self.assertEqual(test.of_program(b"one\ntwo\n", ENDED, self.folder).failures, [])

    def test_another_status_is_named(self):
        self.write("stdout", "one\n")
        self.assertEqual(test.of_program(b"one\n", ENDED, self.folder).failures[0][1], ["it ended with status 7 and not 0"])

    def test_the_first_other_line_is_named(self):
        self.write("stdout", "one\ntwo\n")
        self.write("status", "7")
        (what, why), = test.of_program(b"one\nthree\n", ENDED, self.folder).failures
        self.assertIn("line 2 is 'three' and not 'two'", why[0])

    def test_one_line_may_be_another_unproved(self):
        self.write("stdout", "one\ntwo\n")
        self.write("status", "7")
        self.write("stdout.unproved", "old: two\nnew: three\n")
        self.assertEqual(test.of_program(b"one\nthree\n", ENDED, self.folder).failures, [])
        self.assertTrue(test.of_program(b"one\ntwo\n", ENDED, self.folder).failures)

    def test_without_a_wanted_output_nothing_may_be_written(self):
        self.write("status", "7")
        self.assertTrue(test.of_program(b"one\n", ENDED, self.folder).failures)
        self.assertFalse(test.of_program(b"", ENDED, self.folder).failures)

    def test_a_program_that_does_not_end_is_a_failure(self):
        said = "checked: no-answer: the program did not end within the time limit\nrun=no-answer proved=no\n"
        self.assertIn("did not end", test.of_program(b"", said, self.folder).failures[0][0])

    def test_tests_are_those_that_the_attribute_marks(self):
        self.write("src/lib.rt", "#[cfg(test)]\nmod tests;\n// #[test]\n")
        self.assertFalse(test.has_tests(self.folder))
        self.write("src/tests/deep.rt", "    #[test]\n    fn one() {}\n")
        self.assertTrue(test.has_tests(self.folder))

    def test_data_is_taken_with_its_folders(self):
        self.write("data/b/one", "")
        self.write("data/a", "")
        self.assertEqual(test.files_below(f"{self.folder}/data"), ["a", "b/one"])

    def test_what_took_longest_comes_first_behind_what_was_never_tested(self):
        for name, seconds in (("short", 3.0), ("long", 90.0)):
            self.write(f"{name}/src/lib.rt", "")
            test.keep_seconds(f"{self.folder}/{name}", [test.Result("tests", seconds=seconds)])
        self.write("new/src/lib.rt", "//! New.\n")
        self.write("said/src/lib.rt", "")
        self.write("said/seconds.unproved", "40\n")
        self.write("short/seconds.unproved", "400\n")
        found = sorted(["short", "said", "new", "long"], key=lambda it: test.expected_seconds(f"{self.folder}/{it}"), reverse=True)
        self.assertEqual(found, ["new", "long", "said", "short"])


class SmallerNumbers(WithRoom):
    """What src.unproved changes, in a crate of one file, and of those that have it."""

    def setUp(self):
        super().setUp()
        self.folder = self.room = f"{self.room}/crates/small"
        self.write("src/lib.rt", "const TIMES: u32 = 100;\nconst EACH: [u32; 2] = [1, u32::MAX];\nfn f() {}\n")
        self.write("out/kept", "")

    def edit(self, *pairs):
        self.write("src.unproved", "file: src/lib.rt\n" + "".join(f"old: {old}\nnew: {new}\n" for old, new in pairs))

    def test_constants_have_other_values_in_a_copy(self):
        self.edit(("const TIMES: u32 = 100;", "const TIMES: u32 = 5;"), ("const EACH: [u32; 2] = [1, u32::MAX];", "const EACH: [u32; 1] = [4];"))
        with mock.patch.object(test, "below", lambda _: ["small"]), mock.patch.object(test, "crates", lambda: {"small": []}):
            with test.as_unproved(self.folder) as copy:
                self.assertNotEqual(copy, self.folder)
                self.assertEqual(read_text(f"{copy}/src/lib.rt"), "const TIMES: u32 = 5;\nconst EACH: [u32; 1] = [4];\nfn f() {}\n")
                self.assertFalse(os.path.exists(f"{copy}/out"))
        self.assertFalse(os.path.exists(copy))
        self.assertIn("u32 = 100;", read_text(f"{self.folder}/src/lib.rt"))

    def test_without_it_the_crate_is_run_where_it_is(self):
        with test.as_unproved(self.folder) as folder:
            self.assertEqual(folder, self.folder)

    def test_nothing_else_may_be_another(self):
        for old, new in (("fn f() {}", "fn g() {}"), ("const TIMES: u32 = 100;", "const OTHER: u32 = 100;"), ("const TIMES: u32 = 100;", "// none;"),
                         ("const TIMES: u32 = 100;", "const TIMES: u32 = 1; fn g() {}"), ("const TIMES: u32 = 7;", "const TIMES: u32 = 1;")):
            self.edit((old, new))
            with self.subTest(new), self.assertRaises(SystemExit):
                test.smaller(self.folder)

    def test_what_the_crates_have_is_of_their_texts_as_they_are(self):
        folders = [f"{TOP}/crates/{it}" for it in crates()]
        self.assertTrue([it for it in folders if test.smaller(it)])
        for it in folders:
            test.wanted_of(it)
