"""Tests of the sessions of gdb: how they are read, run and compared, and what guest/dthreads-gdb starts. A script stands for gdb."""
import os
import shutil
import subprocess
import tempfile
import unittest
from unittest import mock

from dt_commands import debugging_page, gdb_sessions, gdb_transcripts, guest_runs
from dt_commands.texts import write_file
from rooms import WithRoom, data

TEXT = data("session.txt")

# A gdb that knows three commands; what it prints behind a prompt is all on its standard output.
GDB = data("gdb.txt")


def session(text=TEXT, name="a"):
    return gdb_transcripts.Session(name, text)


def script(file, text):
    write_file(file, text, 0o755)


class Reading(unittest.TestCase):
    def test_a_session_has_a_head_and_commands_with_their_lines(self):
        found = session()
        self.assertEqual(found.head, {"program": "a.c -g", "options": "--bound 5"})
        self.assertEqual(found.commands, [("first", ["one {n}", "...", "last"]), ("second", [])])
        self.assertEqual((found.words("program"), found.words("options")), (["a.c", "-g"], ["--bound", "5"]))

    def test_another_head_is_refused(self):
        for text in ("programs: a.c\n(gdb) one\n", "program: a.c\n", "(gdb) one\n"):
            with self.assertRaises(SystemExit):
                session(text)

    def test_the_stored_sessions_can_be_read(self):
        for name in gdb_transcripts.names():
            self.assertTrue(os.path.isdir(gdb_transcripts.read(name).folder), name)


class Comparing(unittest.TestCase):
    def test_patterns_stand_for_numbers_and_texts(self):
        self.assertTrue(gdb_transcripts.is_line("0x100a8 in f (n=12) at [x]", "{hex} in f (n={n}) at {*}"))
        self.assertFalse(gdb_transcripts.is_line("0x100a8 in f (n=1)", "{n} in f (n={n})"))
        self.assertFalse(gdb_transcripts.is_line("value 15", "value 5"))
        self.assertFalse(gdb_transcripts.is_line("abc", "a.c"))

    def test_three_dots_stand_for_any_lines(self):
        for got in (["a", "z"], ["a", "b", "c", "z"]):
            self.assertTrue(gdb_transcripts.agree(got, ["a", "...", "z"]))
        for got in (["a"], ["a", "z", "b"], ["z"], []):
            self.assertFalse(gdb_transcripts.agree(got, ["a", "...", "z"]))
        self.assertTrue(gdb_transcripts.agree([], []))
        self.assertFalse(gdb_transcripts.agree(["a"], []))

    def test_the_first_other_line_is_told(self):
        self.assertIsNone(gdb_transcripts.difference(["a"], ["a"]))
        self.assertEqual(gdb_transcripts.difference(["a", "b"], ["a", "c"]), "printed 'b' and not 'c'")
        self.assertEqual(gdb_transcripts.difference(["a"], ["a", "c"]), "printed '(no more)' and not 'c'")

    def test_lines_status_and_a_left_program_are_faults(self):
        well = ([("first", ["one 1", "last"]), ("second", [])], 0, False)
        self.assertEqual(list(gdb_transcripts.faults(session(), well)), [])
        other = ([("first", ["one", "last"]), ("second", [])], 1, True)
        found = list(gdb_transcripts.faults(session(), other))
        self.assertTrue(found[0].startswith("first: printed 'one' and not 'one {n}'"))
        self.assertEqual(found[1:], ["gdb ended with status 1, wanted 0", "dthreads debug didn't end with gdb"])
        self.assertEqual(list(gdb_transcripts.faults(session(), "no compiler")), ["no compiler"])

    def test_a_killed_gdb_has_the_status_of_that(self):
        self.assertEqual(gdb_transcripts.wanted_status(session("program: a.c\nstatus: 3\n(gdb) quit 3\n")), 3)
        self.assertEqual(gdb_transcripts.wanted_status(session("program: a.c\n(gdb) continue\n^KILL\n")), -9)


class Writing(unittest.TestCase):
    GOT = [("first", ["one 7", "last"]), ("second", ["at 0x000100a8, step 12"])]

    def test_lines_that_agree_stay(self):
        wanted = TEXT.replace("\n\n...", "\n...") + "at {hex}, step 12\n"
        self.assertEqual(gdb_transcripts.rewritten(TEXT, session(), self.GOT), wanted)

    def test_a_page_has_the_lines_as_they_are(self):
        found = gdb_transcripts.rewritten(TEXT, session(name="page_a"), self.GOT)
        self.assertTrue(found.endswith("(gdb) second\nat 0x000100a8, step 12\n"))

    def test_what_another_compiler_changes_becomes_a_pattern(self):
        for line, wanted in (
            ("trap thread=1 pc=00010098 cause=5 value=00000000", "trap thread=1 pc={*} cause=5 value=00000000"),
            ("trap thread=1 pc=00010098 cause=4 value=000140a1", "trap thread=1 pc={*} cause=4 value={*}"),
            ('Thread 1 (Thread 1 "guest 0" (woken)):', 'Thread 1 (Thread 1 "guest 0" ({*})):'),
            ('* 2    Thread 2 "guest 1" (done)   0x00010000 in f ()', '* 2    Thread 2 "guest 1" ({*}){*}{hex} in f ()'),
            ("turn 1, 6 instructions into the turn; step 42", "turn 1, {n} instructions into the turn; step {n}"),
        ):
            self.assertEqual(gdb_transcripts.general(line), wanted)

    def test_a_page_shows_how_the_program_is_built_and_started(self):
        found = debugging_page.shown(session("program: c/a.c -O2 -g\noptions: --input w\n(gdb) run\nno\n"))
        self.assertEqual(found, "```\n$ guest/dthreads-cc -O2 -g -o a.elf c/a.c\n$ guest/dthreads-gdb a.elf --input w\n(gdb) run\nno\n```\n")


class Running(WithRoom):
    """Sessions with the script in place of gdb, and another one in place of the program that debugs."""

    def setUp(self):
        super().setUp()
        self.dthreads = f"{self.room}/program"
        script(f"{self.room}/bin/gdb-multiarch", GDB)
        script(self.dthreads, '#!/bin/sh\n[ "$1" = --version ] || { echo ready; cat > /dev/null; }\n')

    def found(self, text):
        def compiled(words, out, folder):
            script(out, "")

        path = {"PATH": f"{self.room}/bin:{os.environ['PATH']}"}
        fakes = {"compiled": compiled, "program": lambda: self.dthreads}
        with mock.patch.dict(os.environ, path), mock.patch.multiple(guest_runs, **fakes), mock.patch.object(gdb_sessions, "LATER", 0.2):
            return gdb_sessions.transcript(session(text), self.room)

    def test_each_command_has_its_lines(self):
        lines = [("one", ["what is one"]), ("two", ["what is two"])]
        self.assertEqual(self.found("program: a.c\n(gdb) one\n(gdb) two\n"), (lines, 0, False))

    def test_gdb_is_interrupted(self):
        lines = [("continue", ["^C", "stopped"]), ("leave", [])]
        self.assertEqual(self.found("program: a.c\n(gdb) continue\n^C\n(gdb) leave\n"), (lines, 3, False))

    def test_gdb_is_killed(self):
        self.assertEqual(self.found("program: a.c\n(gdb) continue\n^KILL\n"), ([("continue", ["^KILL"])], -9, False))

    def test_a_program_that_stays_is_told(self):
        script(self.dthreads, '#!/bin/sh\n[ "$1" = --version ] || { echo ready; exec sleep 30 > /dev/null 2>&1; }\n')
        with mock.patch.object(gdb_sessions.Debugger.left, "__defaults__", (0.1,)):
            self.assertEqual(self.found("program: a.c\n(gdb) leave\n"), ([("leave", [])], 3, True))

    def test_a_gdb_without_a_prompt_is_ended(self):
        lines, status, is_left = self.found("program: a.c\nseconds: 1\n(gdb) continue\n(gdb) one\n")
        self.assertEqual((lines, status, is_left), ([("continue", [gdb_transcripts.SILENT])], -9, False))


class Starting(unittest.TestCase):
    """What guest/dthreads-gdb says and starts."""

    def called(self, words, gdbs):
        with tempfile.TemporaryDirectory() as room:
            for it in ("bash", "sh", "readlink", "dirname", "sed"):
                os.symlink(shutil.which(it), f"{room}/{it}")
            script(f"{room}/dthreads", "#!/bin/sh\nprintf '<%s>' \"$@\"\n")
            for name in gdbs:
                script(f"{room}/{name}", f"#!/bin/sh\nprintf '{name}\\n'; printf '%s\\n' \"$@\"\n")
            script(f"{room}/it's a.elf", "")
            environment = {"PATH": room, "DTHREADS": f"{room}/dthreads"}
            how = {"stdout": subprocess.PIPE, "stderr": subprocess.PIPE, "env": environment, "cwd": room, "text": True}
            ran = subprocess.run([f"{guest_runs.KIT}/dthreads-gdb", *words], **how)
            target = [it for it in ran.stdout.splitlines() if it.startswith("target extended-remote | ")]
            how["stderr"] = None
            said = subprocess.run(["sh", "-c", target[0][len("target extended-remote | ") :]], **how).stdout if target else ""
            return ran, said

    def test_the_missing_package_is_named(self):
        ran, _ = self.called(["it's a.elf"], [])
        self.assertEqual((ran.returncode, ran.stdout), (2, ""))
        self.assertEqual(ran.stderr, "dthreads-gdb: the package gdb-multiarch is missing: apt-get install gdb-multiarch\n")

    def test_words_come_whole_to_the_program_and_to_gdb(self):
        ran, said = self.called(["it's a.elf", "--input", "a b", "--bound", "5", "--", "-batch", "-ex", "info x"], ["gdb-multiarch"])
        lines = ran.stdout.splitlines()
        self.assertEqual((ran.returncode, lines[:3], lines[-3:]), (0, ["gdb-multiarch", "-q", "it's a.elf"], ["-batch", "-ex", "info x"]))
        self.assertEqual(said, "<debug><it's a.elf><--input><a b><--bound><5><--quantum><200000>")

    def test_words_behind_a_second_sign_are_the_programs(self):
        for words in (["--", "-batch", "--", "one"], ["--", "one"], ["--env", "A=b"]):
            ran, said = self.called(["it's a.elf", *words], ["gdb-multiarch"])
            # (the program isn't one that dthreads-exec can prepare)
            self.assertEqual((ran.returncode, said), (127, ""), words)
        self.assertEqual(self.called(["it's a.elf", "--", "-batch", "--"], ["gdb-multiarch"])[0].stdout.splitlines()[-1], "-batch")

    def test_a_quantum_is_the_one_that_is_named(self):
        for words, wanted in ((["--quantum", "7"], "<--quantum><7>"), (["--quantum=8"], "<--quantum><8>"), (["--quantum", "none"], "")):
            self.assertEqual(self.called(["it's a.elf", *words], ["gdb-multiarch"])[1], f"<debug><it's a.elf>{wanted}")

    def test_gdb_multiarch_goes_before_the_cross_gdb(self):
        cross = "riscv64-unknown-elf-gdb"
        self.assertTrue(self.called(["it's a.elf"], [cross, "gdb-multiarch"])[0].stdout.startswith("gdb-multiarch\n"))
        self.assertTrue(self.called(["it's a.elf"], [cross])[0].stdout.startswith(f"{cross}\n"))

    def test_a_program_that_is_not_there_is_told(self):
        ran, _ = self.called(["b.elf"], ["gdb-multiarch"])
        self.assertEqual((ran.returncode, ran.stderr), (2, "dthreads-gdb: b.elf: no such program, or it can't be read\n"))
