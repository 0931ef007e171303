"""Tests of the rows that the built program answers: their texts, and that a wrong answer is told."""
import os
import stat
import tempfile
import unittest
from unittest import mock

from dt_commands import bench, command_rows, row_texts, rows, run_rows, session_rows, written_guests

ROW = """# A comment.

row first
each 1..3 x
do dthreads {}
status 0

row second
status 2
"""
GUEST = """# Exits with 7.
zeros 00020000 4096
listing
  00010000: 00100893 addi x17,x0,1

run seven
bound 5
input 0a0b
ends exit 7
status 7
trace
  1 0 exit 00000007
  * asks 5
digest
  outcome exit 7
"""


class Texts(unittest.TestCase):
    def test_escapes_stand_for_bytes(self):
        self.assertEqual(row_texts.bytes_of(r"a\n\r\x00\x7f b"), b"a\n\r\x00\x7f b")

    def test_rows_have_their_values_and_lines(self):
        first, second = row_texts.lined_rows(ROW)
        self.assertEqual((first.name, first.values), ("first", ["1", "2", "3", "x"]))
        self.assertEqual(list(first.each())[3], ("x", ["do dthreads x", "status 0"]))
        self.assertEqual(list(second.each()), [("", ["status 2"])])

    def test_the_first_other_line_of_a_text_is_told(self):
        found = row_texts.Differences()
        found.expect(b"a\nb\n", b"a\nc\n", "trace")
        found.expect(b"", b"a\n", "report")
        found.expect(b"a", b"a", "output")
        self.assertEqual(found.texts, ["trace: b'b'", "report: a line lacks"])

    def test_rows_are_chosen_by_their_first_words(self):
        chosen = [it for it in ("race", "race, bound 3", "races of race", "call read 1") if rows.is_chosen(it, ["race", "call read"])]
        self.assertEqual(chosen, ["race", "call read 1"])


class Data(unittest.TestCase):
    def test_runs_have_their_fields_and_rounds(self):
        (run,) = run_rows.runs_of(GUEST, b"", None)
        self.assertEqual((run.limits, run.given, run.status, run.ending), (["--bound", "5"], b"\x0a\x0b", 7, "exit 7"))
        self.assertEqual((len(run.texts["trace"]), run.texts["digest"], run.message()), (16, ["outcome exit 7"], b""))

    def test_what_no_program_has_is_refused(self):
        for line in ("segment 1", "run a\nfields 1"):
            with self.subTest(line), self.assertRaises(SystemExit):
                run_rows.runs_of(f"{line}\n", b"", None)

    def test_a_call_makes_its_program_and_its_trace(self):
        run = run_rows.call_of("12 read 00020000 00001000 -> 0 00000000")
        self.assertEqual(run.file[-12:].hex(), "730000009308100073000000")
        self.assertEqual(run.texts["trace"][1], "2 0 exit 00000000 00000000 00000000 -> end changed=0 ran=2")

    def test_programs_and_schedules_of_proved_tests_are_found(self):
        programs, traces = run_rows.kept_programs()
        self.assertEqual((len(programs), sorted(traces)), (14, ["keeper-exit", "race"]))
        self.assertEqual(programs["seven"][1], [(0x20000, 4096)])
        self.assertEqual(len(run_rows.kept_schedules()), 5)

    def test_a_written_file_is_that_of_its_words(self):
        words = written_guests.listing("seven")
        self.assertEqual(written_guests.elf("seven"), written_guests.file_of([words[it] for it in sorted(words)]))


SESSION = """program seven
quantum 3
> ?
< +
< T05
> ^C
"""


class Sessions(unittest.TestCase):
    def test_a_session_has_its_packets_and_its_options(self):
        session = session_rows.Session(SESSION)
        self.assertEqual((session.program, session.words), ("seven", ["--quantum", "3"]))
        self.assertEqual((session.sent, session.answered), (b"$?#3f\x03", b"+$T05#b9"))
        with self.assertRaises(SystemExit):
            session_rows.Session("< +\n= T05\n")

    def test_a_seed_fixes_its_stream(self):
        self.assertEqual(session_rows.stream_of(1), session_rows.stream_of(1))
        self.assertNotEqual(session_rows.stream_of(1), session_rows.stream_of(2))


class Answers(unittest.TestCase):
    """What is told of a program that answers everything wrongly."""

    def setUp(self):
        self.room = tempfile.TemporaryDirectory()
        self.addCleanup(self.room.cleanup)
        program = f"{self.room.name}/wrong"
        with open(program, "w", encoding="utf-8") as it:
            it.write("#!/bin/sh\necho output\necho message >&2\necho more >more\nexit 9\n")
        os.chmod(program, stat.S_IRWXU)
        patch = mock.patch.dict(os.environ, {"DTHREADS": program})
        patch.start()
        self.addCleanup(patch.stop)

    def test_runs_are_told_with_all_that_differs(self):
        (run,) = run_rows.runs_of(GUEST, b"", None)
        said = "\n".join(run_rows.compare_run(run, (4,)))
        for what in ("status with 4", "message with 4", "output with 4", "trace with 4", "report with 4", "digest with 4", "files with 4"):
            self.assertIn(what, said)
        self.assertIn("texts that are printed", said)

    def test_replays_races_and_listings_are_told(self):
        (run,) = run_rows.runs_of(GUEST, b"", None)
        row = run_rows.Replay("a")
        self.assertEqual(len(run_rows.compare_replay(row, run, {"a": b"turn\n"})), 4)
        self.assertTrue(run_rows.compare_races(run, b"race\n"))
        self.assertIn("listing by disasm", "\n".join(run_rows.compare_program("seven", ({}, {}))))

    def test_sessions_are_told(self):
        session = session_rows.Session(SESSION)
        self.assertTrue(session_rows.compare_whole(session))
        self.assertEqual(len(session_rows.compare_prefixes(session, range(2))), 2)
        self.assertEqual(len(session_rows.compare_changes(session, range(2))), 2)
        self.assertEqual(len(session_rows.compare_streams("seven")), session_rows.STREAMS)

    def test_command_lines_are_told_with_each_line_that_is_not_so(self):
        lines = ["do dthreads run a.elf", "status 0", "stdout is a", "stderr begins b", "stdout length 3", "stdout word 0 00000001",
                 "trace old", "files-old", "stdout joins trace report", "stderr ends c"]
        row = row_texts.LinedRow("wrong")
        row.lines = lines
        self.assertEqual(len(command_rows.compare(row, "")), 1 + 9 + 5)

    def test_a_line_that_no_row_has_is_told(self):
        for line in ("walk", "stdout like a", "cut 9", "byte 0 00"):
            row = row_texts.LinedRow("wrong")
            row.lines = [line]
            with self.subTest(line):
                self.assertEqual(len(command_rows.compare(row, "")), 1)


class Bench(unittest.TestCase):
    def test_it_is_put_beside_the_crates_below_it(self):
        with tempfile.TemporaryDirectory() as place:
            crate = bench.put(place, is_proved=False)
            self.assertTrue(os.path.isfile(f"{crate}/src/main.rt"))
            self.assertEqual({*os.listdir(f"{place}/crates")}, {bench.NAME, *bench.crates_below()})
            with open(f"{place}/crates.txt", encoding="utf-8") as it:
                self.assertEqual(len(it.readlines()), 1 + len(bench.crates_below()))
