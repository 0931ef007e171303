"""Tests of guest/dthreads-exec that need no compiler: how it starts the program, with scripts in place of ./dthreads."""
import os
import subprocess
import sys

from dt_commands.repository import TOP
from rooms import WithRoom

EXEC, SAMPLE = f"{TOP}/guest/dthreads-exec", f"{TOP}/samples/c/counter.elf"
# A frame of the output: what goes to standard output, and the four bytes `one\n`.
ONE = r"printf '\001\000\000\000\004\000\000\000one\n'"
# What takes longer to import than a small run lasts.
SLOW = {"datetime", "pathlib", "re", "shlex", "shutil", "site", "subprocess", "tempfile", "threading"}


class Starts(WithRoom):
    errors = subprocess.PIPE

    def called(self, *words, text=ONE, before=(), **more):
        """Calls dthreads-exec with a script of this text as the program that runs others."""
        self.write("dthreads", f"#!/bin/sh\n{text}\n", 0o755)
        os.makedirs(f"{self.room}/tmp", exist_ok=True)
        environment = {**os.environ, "DTHREADS": f"{self.room}/dthreads", "TMPDIR": f"{self.room}/tmp", **more}
        how = {"stdin": subprocess.DEVNULL, "stdout": subprocess.PIPE, "stderr": self.errors, "text": True}
        ran = subprocess.run([*before, EXEC, *words], env=environment, **how)
        self.said = ran.stderr
        return ran.returncode, ran.stdout

    def words(self):
        """Returns the words that the program was called with."""
        with open(f"{self.room}/dthreads.words", encoding="utf-8") as it:
            return it.read().split()

    def left(self):
        return os.listdir(f"{self.room}/tmp")

    def test_nothing_slow_is_imported_for_a_run(self):
        ran = self.called(SAMPLE, before=(sys.executable, "-S", "-X", "importtime"))
        imported = {line.rpartition("|")[2].strip() for line in self.said.splitlines()}
        self.assertEqual((ran, imported & SLOW), ((0, "one\n"), set()))
        with open(EXEC, encoding="utf-8") as it:
            self.assertTrue(it.readline().endswith(" -S\n"))

    def test_a_run_is_explained_at_a_terminal(self):
        text = f'{ONE}; echo "$@" > "$0.words"'
        self.called(SAMPLE, text=text)
        self.assertNotIn("--explain", self.words())
        self.called(SAMPLE, "--explain", text=text)
        self.assertEqual(self.words().count("--explain"), 1)
        keeper, self.errors = os.openpty()
        try:
            for words, count in (([], 1), (["--explain"], 1), (["--explore"], 0)):
                self.called(SAMPLE, *words, text=text)
                self.assertEqual(self.words().count("--explain"), count)
        finally:
            os.close(self.errors)
            os.close(keeper)

    def test_the_folder_of_the_run_is_gone_at_its_end(self):
        self.assertEqual(self.called(SAMPLE, text=f"{ONE}; test -s $2; exit 7"), (7, "one\n"))
        self.assertEqual(self.left(), [])
        self.assertEqual(self.called(SAMPLE, "--explore", text="echo explored")[1], "explored\n")
        self.assertEqual(self.left(), [])
        self.assertEqual(self.called(SAMPLE, TMPDIR="/nowhere"), (0, "one\n"))

    def test_a_missing_program_is_told_in_a_line(self):
        self.assertEqual(self.called(SAMPLE, DTHREADS="/nowhere"), (1, ""))
        self.assertEqual((self.said, self.left()), ("dthreads-exec: /nowhere: No such file or directory\n", []))

    def test_a_program_that_a_signal_ended_has_the_status_of_shells(self):
        self.assertEqual(self.called(SAMPLE, text="kill -9 $$"), (137, ""))

    def test_signals_that_python_ignores_end_the_program(self):
        self.assertEqual(self.called(SAMPLE, text="kill -13 $$"), (141, ""))

    def test_closed_streams_get_no_file_of_the_run(self):
        text = 'cat >/dev/null; echo said >&2; printf "\\002\\000\\000\\000\\004\\000\\000\\000two\\n"'
        for closed in ("<&-", "0<&- 1>&-"):
            with self.subTest(closed):
                shell = f'exec "$0" "$@" {closed}'
                self.assertEqual(self.called(SAMPLE, text=text, before=("sh", "-c", shell)), (0, ""))
                self.assertEqual(self.said, "two\nsaid\n")
