"""Tests that a check which looked at nothing fails, and that the gate does, whose commands are scripts here."""
import contextlib
import io
import os
import shutil
import subprocess
import tempfile
import unittest
from unittest import mock

from dt_commands import catch_alls, clauses, exceptions, host_threads, layers, made_up_errors, page_links, pages, samples, sources, uncalled
from dt_commands.repository import TOP
from dt_commands.texts import write_file

DT = """#!/bin/sh
echo "dt $*"
case "$*" in $FAILS) exit 1 ;; esac
"""
RT = """#!/bin/sh
echo "rt $*"
[ -z "$VERDICT" ] || echo "$VERDICT"
"""


class Checks(unittest.TestCase):
    def fails(self, check, *patches):
        with contextlib.ExitStack() as stack, contextlib.redirect_stdout(io.StringIO()) as out:
            for it in patches:
                stack.enter_context(it)
            self.assertEqual(check(None), 1, out.getvalue())
        return out.getvalue()

    def test_no_sources_fail(self):
        said = self.fails(made_up_errors.check, mock.patch.object(made_up_errors, "lines_found", return_value=(0, [])),
                          mock.patch.multiple(made_up_errors, HANDED_ON=set(), BEYOND_ANY_HOST=set(), FAKES=set()))
        self.assertIn("0 sources", said)

    def test_no_clauses_fail(self):
        self.assertIn("0 clauses", self.fails(clauses.check, mock.patch.object(clauses, "files_of", return_value=[])))

    def test_a_product_without_sources_fails(self):
        empty = mock.patch.object(sources, "of_product", return_value=[]), mock.patch.object(exceptions, "places", return_value={})
        self.assertIn("0 files", self.fails(catch_alls.check, *empty))
        self.assertIn("0 functions", self.fails(uncalled.check, *empty))

    def test_no_crates_fail(self):
        patches = mock.patch.object(layers, "rows_of", return_value=[]), mock.patch.object(layers, "complaints", return_value=[])
        self.assertIn("0 crates", self.fails(layers.check, *patches))

    def test_no_samples_fail(self):
        patches = [mock.patch.object(samples, it, return_value=value) for it, value in (("made", {}), ("differing", []))]
        self.assertIn("0 samples", self.fails(samples.check, *patches))

    def test_no_links_and_no_quotations_fail(self):
        self.assertIn(" 0 links", self.fails(pages.check, mock.patch.object(page_links, "links", return_value=[])))
        self.assertIn(" 0 quoted lines", self.fails(pages.check, mock.patch.object(pages, "quoted", return_value=[])))

    def test_runs_that_end_at_once_tell_nothing_of_host_threads(self):
        with tempfile.TemporaryDirectory() as room, contextlib.redirect_stdout(io.StringIO()) as out:
            with mock.patch.dict(os.environ, {"DTHREADS": shutil.which("true")}):
                self.assertEqual(host_threads.wait_fails(room), len(host_threads.WAITING))
        self.assertIn("status 0, not 120", out.getvalue())


class Gate(unittest.TestCase):
    def ran(self, verdict="7 passed, 0 failed", fails="nothing"):
        """Returns the status of a gate, and which commands it called."""
        with tempfile.TemporaryDirectory() as top:
            for file, text in (("tools/dt", DT), ("bin/rt", RT)):
                os.makedirs(os.path.dirname(f"{top}/{file}"))
                write_file(f"{top}/{file}", text)
                os.chmod(f"{top}/{file}", 0o755)
            os.mkdir(f"{top}/.ci")
            shutil.copy(f"{TOP}/.ci/run", f"{top}/.ci/run")
            environment = {**os.environ, "PATH": f"{top}/bin:{os.environ['PATH']}", "VERDICT": verdict, "FAILS": fails}
            done = subprocess.run([f"{top}/.ci/run"], stdout=subprocess.PIPE, stderr=subprocess.PIPE, env=environment, text=True)
        return done.returncode, done.stdout.splitlines()

    def test_it_ends_with_the_verdict_and_runs_what_users_of_c_run(self):
        status, said = self.ran()
        self.assertEqual((status, said[0], said[-1]), (0, "dt packages", "7 passed, 0 failed"))
        self.assertLess(said.index("rt ci"), said.index("dt test kit"))
        for it in ("dt check", "dt self-test --all", "dt release --check", "dt test numbers --brief", "dt test threads", "dt sweep memory --gate"):
            self.assertIn(it, said)

    def test_missing_packages_end_it_at_once(self):
        status, said = self.ran(fails="packages")
        self.assertEqual((status, said), (1, ["dt packages"]))

    def test_each_of_its_commands_can_fail_it(self):
        for it in ("check", "self-test*", "release*", "test*numbers*", "test*threads", "sweep*memory*", "test*kit"):
            with self.subTest(it):
                self.assertEqual(self.ran(fails=it.replace("*", "?*"))[0], 1)

    def test_a_verdict_of_nothing_fails(self):
        for it in ("0 passed, 0 failed", "", "7 passed, 1 failed"):
            with self.subTest(it):
                self.assertEqual(self.ran(it)[0], 1)
