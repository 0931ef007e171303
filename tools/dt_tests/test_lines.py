"""Tests of guest/dthreads-lines. The lines of a real program need the compiler of guest programs."""
import os
import shutil
import subprocess
import unittest

from dt_commands import guest_runs
from rooms import WithRoom, data

LINES = f"{guest_runs.KIT}/dthreads-lines"
# A program whose places are found by their text.
SOURCE = data("lines.c")
# Answers of a script that stands for addr2line, by the addresses that it is given.
ANSWERS = data("addr2line.txt")
# The symbols of a script that stands for nm.
SYMBOLS = "#!/bin/sh\nprintf '%s\\n' '00010100 T one' '000100fc t two' '00018200 B it' '00000001 t same' '00000002 t same'\n"
# A finding of each kind but a race, and two of misuse.
FINDINGS = """\
order it+0 none+4 thread=1 turn=9+2 in=one+0 thread=2 turn=12+2 in=two+8
misuse unlock-of-anothers object=it+0 thread=2 turn=14+9 in=one+4 held-by thread=1 since=11+4
misuse end-with-lock address=20000410 thread=2 turn=14+9 in=same+0
freed address=20000410 bytes=4 load thread=2 turn=31+12 pc=00010100 freed-by thread=1 turn=28+3 in=one+0 in=two+8 block=20000400+48
"""


class Lines(WithRoom):
    """What guest/dthreads-lines makes of a list of races."""

    def setUp(self):
        super().setUp()
        self.room = os.path.realpath(self.room)

    def lines(self, text, *words, path=None):
        environment = {**os.environ, "PATH": f"{path or self.room}:{os.environ['PATH']}"}
        how = {"input": text, "stdout": subprocess.PIPE, "stderr": subprocess.PIPE, "universal_newlines": True}
        return subprocess.run([LINES, *words], cwd=self.room, env=environment, **how)

    def test_places_are_put_behind_what_they_are_of(self):
        self.write("riscv64-unknown-elf-addr2line", ANSWERS, 0o755)
        self.write("a.elf", "")
        race = "race address=00018203 bytes=1 load thread=0 turn=1 pc=00010100{} store thread=1 turn=2 pc=00010104{} object=it+3{} in=a+4\n"
        rest = "race address=00018300 bytes=4 load thread=0 turn=1 pc=00010108 store thread=1 turn=2 pc=0001010c object=a+0\nand 3 more\n"
        ran = self.lines(race.format("", "", "") + rest, "a.elf")
        self.assertEqual((ran.returncode, ran.stderr), (0, ""))
        self.assertEqual(ran.stdout, race.format(" at=one.c:7", " at=/other/two words.c:12", " at=below/three.c:1") + rest)

    def test_an_inlined_place_of_rusts_library_has_the_line_of_the_program(self):
        self.write("riscv64-unknown-elf-addr2line", ANSWERS, 0o755)
        self.write("a.elf", "")
        race = "race address=00018300 bytes=4 load thread=0 turn=1 pc=00010200{} store thread=1 turn=2 pc=00010204{} object=a+0\n"
        ran = self.lines(race.format("", ""), "a.elf")
        self.assertEqual(ran.stdout, race.format(" at=one.c:8", " at=/rustc/library/std/src/io/mod.rs:3"))

    def as_told(self, *words):
        """Returns what becomes of a list of each other kind of finding, with the symbols of a script that stands for nm."""
        self.write("riscv64-unknown-elf-addr2line", ANSWERS, 0o755)
        self.write("riscv64-unknown-elf-nm", SYMBOLS, 0o755)
        self.write("a.elf", "")
        ran = self.lines(FINDINGS, *words, "a.elf")
        self.assertEqual((ran.returncode, ran.stderr), (0, ""))
        return ran.stdout.splitlines()

    def test_calls_have_the_lines_of_their_functions(self):
        self.assertEqual(self.as_told(), [
            "order it+0 at=below/three.c:1 none+4 thread=1 turn=9+2 in=one+0 at=one.c:7 thread=2 turn=12+2 in=two+8 "
            "at=/other/two words.c:12",
            "misuse unlock-of-anothers object=it+0 at=below/three.c:1 thread=2 turn=14+9 in=one+4 at=/other/two words.c:12 held-by "
            "thread=1 since=11+4",
            "misuse end-with-lock address=20000410 thread=2 turn=14+9 in=same+0",
            "freed address=20000410 bytes=4 load thread=2 turn=31+12 pc=00010100 at=one.c:7 freed-by thread=1 turn=28+3 in=one+0 "
            "in=two+8 at=/other/two words.c:12 block=20000400+48",
        ])

    def test_findings_for_a_reader(self):
        self.assertEqual(self.as_told("--readable"), [
            "order of locks it below/three.c:1, none+4",
            "  none+4 taken with it by thread 1 in turn 9+2   one one.c:7",
            "  it taken with none+4 by thread 2 in turn 12+2  two /other/two words.c:12",
            "unlock of anothers, it below/three.c:1",
            "  call by thread 2 in turn 14+9  one /other/two words.c:12",
            "  held by thread 1 in turn 11+4",
            "end with lock, 20000410",
            "  call by thread 2 in turn 14+9  same",
            "freed of 4 bytes, at 20000410, block of 48 bytes",
            "  load by thread 2 in turn 31+12  one one.c:7",
            "  freed by thread 1 in turn 28+3  two /other/two words.c:12",
        ])

    @unittest.skipUnless(shutil.which("riscv64-unknown-elf-c++filt"), "needs binutils-riscv64-unknown-elf")
    def test_names_of_other_languages_are_those_of_the_program(self):
        self.write("riscv64-unknown-elf-addr2line", ANSWERS, 0o755)
        self.write("a.elf", "")
        race = "race address=00018200 bytes=1 load thread=0 turn=1 pc=00010100{} store thread=1 turn=2 pc=0001010c"
        race += " object={}+3 in={}+4 in={}+8\n"
        names = ("_ZN4race5TABLE17h0123456789abcdefE", "_RNvCs1234_4race3add", "_ZNK4race1XIjE3addEiPKc")
        ran = self.lines(race.format("", *names), "a.elf")
        self.assertEqual(ran.stdout, race.format(" at=one.c:7", "race::TABLE", "race::add", "race::X<unsigned_int>::add"))

    def test_a_program_without_lines_is_told(self):
        self.write("riscv64-unknown-elf-addr2line", ANSWERS, 0o755)
        self.write("a.elf", "")
        race = "race address=00018300 bytes=4 load thread=0 turn=1 pc=00010108 store thread=1 turn=2 pc=0001010c\n"
        ran = self.lines(race, "a.elf")
        self.assertEqual((ran.returncode, ran.stdout), (1, race))
        self.assertEqual(ran.stderr, "dthreads-lines: a.elf has none of these lines: compile it with -g\n")

    def test_an_empty_list_asks_nothing(self):
        self.write("riscv64-unknown-elf-addr2line", "#!/bin/sh\nexit 1\n", 0o755)
        self.write("a.elf", "")
        ran = self.lines("", "a.elf")
        self.assertEqual((ran.returncode, ran.stdout, ran.stderr), (0, "", ""))

    def test_a_failure_of_the_tool_is_told(self):
        self.write("riscv64-unknown-elf-addr2line", "#!/bin/sh\necho 'file format not recognized' >&2\nexit 1\n", 0o755)
        self.write("a.elf", "")
        ran = self.lines("race address=00018300 bytes=4 load thread=0 turn=1 pc=00010108 store thread=1 turn=2 pc=0001010c\n", "a.elf")
        self.assertEqual((ran.returncode, ran.stdout, ran.stderr), (2, "", "dthreads-lines: file format not recognized\n"))

    def test_wrong_words(self):
        self.assertEqual((self.lines("").returncode, self.lines("", "a", "b").returncode), (2, 2))
        self.assertEqual(self.lines("", "none.elf").stderr, "dthreads-lines: none.elf: no such program\n")
        self.assertIn("addr2line", self.lines("", "--help").stdout)

    @unittest.skipUnless(shutil.which("riscv64-unknown-elf-gcc"), "there is no compiler of guest programs")
    def test_the_lines_of_a_real_program(self):
        self.write("program.c", SOURCE)
        said = guest_runs.compiled(["-O1", "-g", "program.c"], f"{self.room}/program.elf", self.room)
        self.assertIsNone(said)
        ran = subprocess.run(["riscv64-unknown-elf-nm", "program.elf"], cwd=self.room, stdout=subprocess.PIPE, check=True, text=True)
        at = {name: int(address, 16) for address, _, name in map(str.split, ran.stdout.splitlines())}
        race = f"race address={at['table'] + 12:08x} bytes=4 load thread=0 turn=1 pc={at['add']:08x}{{}} store thread=1 turn=2 " \
               f"pc={at['exit']:08x} object=table+12{{}} in=add+0 in=exit+0\n"
        ran = self.lines(race.format("", ""), "program.elf", path="/usr/bin")
        self.assertEqual((ran.returncode, ran.stderr), (0, ""))
        self.assertEqual(ran.stdout, race.format(" at=program.c:6", " at=program.c:1"))
