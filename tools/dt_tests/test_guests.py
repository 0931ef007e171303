"""Tests of the commands that build, run and measure guests: what they read and compare. No guest is run."""
import contextlib
import hashlib
import io
import os
import random
import shutil
import tempfile
import unittest
from unittest import mock

from dt_commands import c_page, c_samples, guest_runs, guest_tests, manual_examples, measure_c_samples, random_guests, samples
from dt_commands import texts, written_guests
from dt_commands.progress import Progress
from dt_commands.texts import write_file
from rooms import WithRoom

PAGE = """.SS Program source
.EX
#include <old.h>
.EE
.SS Program source
.\\" a remark
.EX
not a program
.EE
.EX
#include <stdio.h>
.in +4n
    printf("\\en\\-\\(aq\\(aq");
.EE
.EX
#include <later.h>
.EE
""".splitlines(True)


class Texts(unittest.TestCase):
    def test_the_first_other_line_is_told(self):
        self.assertEqual(texts.first_difference(b"a\nb\n", b"a\nc\n"), "line 2 is 'b' and not 'c'")
        self.assertEqual(texts.first_difference(b"a", b"a\n"), "line 2 is '(its end)' and not ''")

    def test_a_list_has_rows_of_words(self):
        with tempfile.TemporaryDirectory() as room:
            write_file(f"{room}/list", "# a remark\n\none  two\nthree\n")
            self.assertEqual(texts.rows_of(f"{room}/list"), [["one", "two"], ["three"]])

    def test_progress_says_how_far_it_is(self):
        progress = Progress("guests", 3)
        seen = [progress.line() for _ in progress.each(["a", "b"])]
        self.assertEqual(seen, ["0 of 3 guests, at work on a (0:00 so far)", "1 of 3 guests, at work on b (0:00 so far)"])


class Runs(unittest.TestCase):
    def faults(self, run, first=None, output=b"out", status=0):
        return list(guest_runs.faults(run, first or run, output, status))

    def test_a_run_is_well_if_output_status_and_trace_are_the_wanted_ones(self):
        self.assertEqual(self.faults(guest_runs.Run(0, b"out", b"", b"trace")), [])

    def test_each_difference_is_told(self):
        well, other = guest_runs.Run(0, b"out", b"", b"trace"), guest_runs.Run(1, b"no", b"why", b"t")
        self.assertEqual(self.faults(other, well), ["status 1, wanted 0: why", "line 1 is 'no' and not 'out'", "another trace"])
        self.assertEqual(self.faults(other, other, b"no", None), [])

    def test_a_run_without_a_trace_is_a_fault(self):
        self.assertEqual(self.faults(guest_runs.Run(0, b"out", b"", None)), ["another trace"])

    def test_a_failure_makes_the_status(self):
        with contextlib.redirect_stderr(io.StringIO()) as said, contextlib.redirect_stdout(io.StringIO()) as printed:
            tally = guest_runs.Tally()
            tally.tried = 2
            self.assertEqual(tally.status("guests", ": all well"), 0)
            tally.fail("one is wrong")
            self.assertEqual(tally.status("guests", ": all well"), 1)
        self.assertEqual((printed.getvalue(), said.getvalue()), ("2 guests: all well\n", "one is wrong\n1 failures in 2 guests\n"))

    def test_each_worker_count_is_a_run_of_a_command(self):
        with tempfile.TemporaryDirectory() as room:
            script = f"{room}/guest"
            write_file(script, '#!/bin/sh\necho "$@"; echo trace > "$4"; [ "$2" != 64 ]\n')
            os.chmod(script, 0o755)
            tally = guest_runs.Tally()
            guest = guest_runs.Guest([script], ["more"])
            with contextlib.redirect_stderr(io.StringIO()) as said:
                guest_runs.agree(tally, "guest", guest, room, f"--workers 1 --trace {room}/trace more\n".encode(), 0, (1, 64))
        self.assertEqual(tally.failed, 2)
        self.assertIn("guest with 64 workers: status 1, wanted 0", said.getvalue())


class Lists(unittest.TestCase):
    def test_the_samples_in_c_have_their_files(self):
        for it in c_samples.samples():
            with self.subTest(it.name):
                self.assertTrue(all(map(os.path.exists, [it.program, it.output, it.given or it.output, f"{c_samples.FOLDER}/{it.name}.c"])))

    def test_the_tests_of_the_library_have_their_files(self):
        for name, *_ in guest_tests.chosen([]):
            with self.subTest(name):
                self.assertTrue(guest_tests.source_of(name))
                self.assertTrue(os.path.exists(f"{guest_tests.FOLDER}/{name}.out"))


class Pages(unittest.TestCase):
    def test_the_commands_of_a_page_and_what_is_below_them(self):
        page = "$ not here\n```\nnot this\n$ one\nsaid\n```\n```\nno command\n```\n```\n$ two\n```\n"
        self.assertEqual(c_page.shown_in(page), ["$ one", "said", "$ two"])

    def test_a_relative_program_is_the_same_one_in_the_folder_of_the_commands(self):
        with mock.patch.dict(os.environ, {"DTHREADS": "crates/a/program"}):
            got = c_page.ran("docs/A.md", "```\n$ echo $DTHREADS; readlink dthreads\n```\n")
        self.assertEqual(got[1:], [os.path.realpath("crates/a/program")] * 2)

    def test_the_first_whole_program_of_the_last_heading_is_the_example(self):
        self.assertEqual(manual_examples.program_in(PAGE), "#include <stdio.h>\n    printf(\"\\n-''\");\n")


class Samples(WithRoom):
    """The ELF files of samples, in copies of their folders."""

    def setUp(self):
        super().setUp()
        self.data, of_command = f"{self.room}/data", f"{self.room}/letter.elf"
        shutil.copytree(samples.DATA, self.data)
        shutil.copyfile(samples.OF_COMMAND, of_command)
        for module, name, value in ((samples, "DATA", self.data), (samples, "OF_COMMAND", of_command), (written_guests, "DATA", self.data)):
            self.patch(module, name, value)

    def test_they_are_as_their_listings(self):
        self.assertEqual(samples.differing(), [])

    def test_a_listing_with_another_word_is_told(self):
        with open(f"{self.data}/race.listing", "r+", encoding="utf-8") as it:
            text = it.read()
            it.seek(0)
            it.write(text.replace(" 00000073 ", " 00100073 ", 1))
        self.assertEqual(samples.differing()[0], f"{self.data}/race.elf")

    def test_a_file_of_no_sample_is_told(self):
        shutil.copyfile(f"{self.data}/race.elf", f"{self.data}/other.elf")
        self.assertIn(f"{self.data}/other.elf", samples.differing())


class Measures(unittest.TestCase):
    def test_the_longest_path_of_a_trace(self):
        lines = ["1 0 create 0 0 0 -> 0 changed=0 ran=5", "2 0 join 0 0 0 -> wait changed=0 ran=7", "2 1 exit 0 0 0 -> end changed=0 ran=30",
                 "2 1 exit 0 0 0 -> end changed=0 ran=4"]
        with tempfile.NamedTemporaryFile("w", suffix=".trace") as it:
            it.write("".join(f"{line}\n" for line in lines))
            it.flush()
            found = measure_c_samples.Trace(it.name)
        self.assertEqual((found.turns, found.phases, found.instructions, found.path), (4, "2", 46, 39))

    def test_a_seed_fixes_its_program(self):
        of_seed = lambda seed: hashlib.sha256(random_guests.guest(random.Random(seed))).hexdigest()
        self.assertEqual(of_seed(7), of_seed(7))
        self.assertNotEqual(of_seed(7), of_seed(8))
