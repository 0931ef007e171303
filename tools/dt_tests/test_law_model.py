"""The second implementation of the law: instructions by the ISA's text, the rows of whole runs, and runs with a number by hand."""
import contextlib
import io
import os
import re
import unittest
from unittest import mock

from dt_commands import guest_runs, number_tests, run_rows, shuffles, written_guests
from dt_commands.law_model import instructions, memory, runs, shown
from dt_commands.row_texts import listed, text_at
from dt_commands.texts import write_file
from rooms import WithRoom, data

# funct7, funct3, two registers, and what the operation gives.
OPERATIONS = [
    (0x00, 0, 0xFFFFFFFF, 2, 1), (0x20, 0, 1, 2, 0xFFFFFFFF), (0x00, 1, 3, 33, 6), (0x00, 2, 0xFFFFFFFF, 0, 1), (0x00, 3, 0xFFFFFFFF, 0, 0),
    (0x00, 4, 0b1100, 0b1010, 0b0110), (0x00, 6, 0b1100, 0b1010, 0b1110), (0x00, 7, 0b1100, 0b1010, 0b1000),
    (0x00, 5, 0x80000000, 4, 0x08000000), (0x20, 5, 0x80000000, 4, 0xF8000000), (0x20, 5, 0x80000000, 36, 0xF8000000),
    (1, 0, 0xFFFFFFFF, 0xFFFFFFFF, 1), (1, 1, 0x80000000, 0x80000000, 0x40000000), (1, 1, 0xFFFFFFFF, 2, 0xFFFFFFFF),
    (1, 2, 0xFFFFFFFF, 0xFFFFFFFF, 0xFFFFFFFF), (1, 2, 2, 0xFFFFFFFF, 1), (1, 3, 0xFFFFFFFF, 0xFFFFFFFF, 0xFFFFFFFE),
    (1, 4, 0xFFFFFFF9, 2, 0xFFFFFFFD), (1, 4, 7, 0xFFFFFFFE, 0xFFFFFFFD), (1, 4, 7, 0, 0xFFFFFFFF), (1, 4, 0x80000000, 0xFFFFFFFF, 0x80000000),
    (1, 5, 0xFFFFFFF9, 2, 0x7FFFFFFC), (1, 5, 7, 0, 0xFFFFFFFF), (1, 6, 0xFFFFFFF9, 2, 0xFFFFFFFF), (1, 6, 7, 0xFFFFFFFE, 1),
    (1, 6, 7, 0, 7), (1, 6, 0x80000000, 0xFFFFFFFF, 0), (1, 7, 0xFFFFFFF9, 2, 1), (1, 7, 7, 0, 7),
]
# Words at 0x10000 with x5 = 0x20002, and cause and value of the trap that they raise. The byte there is 0x80, and those behind it are 0.
TRAPS = [
    (0x00000000, 2, 0), (0xFFFFFFFF, 2, 0xFFFFFFFF), (0x0000100F, 2, 0x100F), (0x00100073, 3, 0), (0x40001013, 2, 0x40001013),
    (0x02005013, 2, 0x02005013), (0x0002A303, 4, 0x20002), (0x00129303, 4, 0x20003), (0x0002A023, 6, 0x20002), (0x00502023, 7, 0),
    (0x00002003, 5, 0), (0x0020006F, 0, 0x10002), (0x00028067, 0, 0x20002), (0x00000163, 0, 0x10002), (0xFFF2A067, 2, 0xFFF2A067),
]
# Other words there, and the registers or pc that they change.
WORDS = [
    (0x00028303, "x6", 0xFFFFFF80), (0x0002C303, "x6", 0x80), (0x00029303, "x6", 0x80), (0x0002D303, "x6", 0x80), (0xFFF00313, "x6", 0xFFFFFFFF),
    (0x40135313, "x6", 0), (0x40115113, "x2", 0x3FFFFFF8), (0xFFF03313, "x6", 1), (0x0012B313, "x6", 0), (0x12345337, "x6", 0x12345000),
    (0x12345317, "x6", 0x12355000), (0x008000EF, "x1", 0x10004), (0x008000EF, "pc", 0x10008), (0xFFE28067, "pc", 0x20000),
    (0x00501463, "pc", 0x10008), (0x00500463, "pc", 0x10004), (0x0F00000F, "pc", 0x10004), (0x00500013, "x0", 0),
]

# Traces of runs with numbers by their names. The lines between them that begin with # say how they were worked out.
TRACES = dict(re.findall(r"^trace (\S+)\n((?:\d.*\n)+)", data("numbered.traces"), re.M))


class Instructions(unittest.TestCase):
    """One instruction, with x5 = 0x20002 and x2 = 0x7FFFFFF0."""

    def executed(self, word):
        hart = instructions.Hart(0x10000, x2=0x7FFFFFF0, x5=0x20002)
        copy = memory.Copy(memory.pages_of(written_guests.file_of([word])))
        copy.store(0x20002, 1, 0x80)
        return instructions.execute(hart, copy), hart

    def test_operations(self):
        for high, kind, one, other, wanted in OPERATIONS:
            hart = instructions.Hart(0x10000, x5=one, x6=other)
            instructions.decoded(high << 25 | 6 << 20 | 5 << 15 | kind << 12 | 7 << 7 | 0x33)(hart, None)
            self.assertEqual(hart.x[7], wanted, (high, kind, one, other))

    def test_traps(self):
        for word, cause, value in TRAPS:
            with self.assertRaises(instructions.Trap, msg=hex(word)) as raised:
                self.executed(word)
            self.assertEqual((raised.exception.cause, raised.exception.value), (cause, value), hex(word))

    def test_loads_immediates_and_jumps(self):
        for word, changed, wanted in WORDS:
            is_call, hart = self.executed(word)
            found = hart.pc if changed == "pc" else hart.x[int(changed[1:])]
            self.assertEqual((is_call, found), (False, wanted), hex(word))

    def test_an_ecall_changes_nothing(self):
        is_call, hart = self.executed(0x73)
        self.assertEqual((is_call, hart.pc), (True, 0x10000))


class Rows(unittest.TestCase):
    """The rows of whole runs, which were worked out by hand."""

    is_long = True

    def compare(self, row):
        limits = dict(zip((it[2:] for it in row.limits[::2]), map(int, row.limits[1::2])))
        run = runs.Run(runs.Setup(row.file, row.given, **limits))
        found = run.outcome.text, run.outcome.status, run.outcome.message.encode(), run.output, shown.trace(run)
        self.assertEqual(found, (row.ending, row.status, row.message(), row.output, row.text("trace")), row.name)
        if row.texts["digest"]:
            self.assertEqual(shown.digest(run), row.text("digest"), row.name)

    def test_runs_of_guests(self):
        for name in listed(run_rows.DATA):
            if "\nlong\n" not in written_guests.text_of(name):
                for row in run_rows.runs(name):
                    self.compare(row)

    def test_single_calls(self):
        for line in text_at(f"{run_rows.DATA}/single.calls").splitlines():
            if not line.startswith("#"):
                self.compare(run_rows.call_of(line))


class Numbered(unittest.TestCase):
    """Runs with a number, by hand."""

    def compare(self, elf, ending, trace, **setup):
        run = runs.Run(runs.Setup(elf, **setup))
        self.assertEqual((run.outcome.text, shown.trace(run).decode()), (ending, TRACES[trace]))

    def test_all_in_another_order(self):
        race = number_tests.cleared(written_guests.elf("race"))
        self.compare(race, "exit 1", "all-in-reverse", number=39)
        self.compare(race, "exit 1", "all-in-reverse", number=39, first=2, last=2)

    def test_one_a_phase(self):
        race = number_tests.cleared(written_guests.elf("race"))
        self.compare(race, "exit 1", "one-a-phase", number=12)

    def test_from_a_phase_and_up_to_one(self):
        race = number_tests.cleared(written_guests.elf("race"))
        self.compare(race, "exit 1", "up-to-the-third", number=12, last=3)
        self.compare(race, "exit 2", "from-the-third", number=12, first=3, last=3)
        self.compare(race, "exit 2", "from-the-third", number=12, last=0)

    def test_the_start_alone(self):
        self.compare(written_guests.elf("race"), "exit 0", "start-alone", number=39, last=0, choices=5)

    def test_a_keeper_is_never_cut(self):
        self.compare(written_guests.elf("signal-of-one"), "exit 0", "of-a-wait", number=14)

    def test_the_lesser_of_quantum_and_length(self):
        self.compare(written_guests.elf("signal-of-one"), "exit 0", "beside-a-quantum", number=14, quantum=2)


LIST_OF, LENGTH_OF, TURN, LENGTH = runs.Run.list_of, runs.Run.length_of, runs.Run.turn, shuffles.length


def twice(run, phase, serial):
    return LIST_OF(run, phase, serial) + LIST_OF(run, phase, serial)[:1]


def as_the_phase_before(run, phase, serial):
    return LIST_OF(run, phase - 1, serial)


def left_out_for_ever(run, phase, serial):
    return LIST_OF(run, phase if phase % 64 else phase + 1, serial)


def ascending(run, phase, serial):
    return sorted(LIST_OF(run, phase, serial), key=lambda it: it.number)


def length_of_one_alone(run, phase, thread, serial):
    return LENGTH_OF(run, phase, thread, serial * 2)


def cutting_keepers(run, phase, thread, pages, length, is_keeper=False):
    cut = LENGTH(run.setup.number, phase, thread.number) if is_keeper and run.is_shuffled(phase) else length
    return TURN(run, phase, thread, pages, cut, is_keeper)


def on_after_the_last(run, phase):
    return run.setup.number > 0 and run.setup.first <= phase


def before_the_first(run, phase):
    return run.setup.number > 0 and (run.setup.last is None or phase <= run.setup.last)


def length_of_another_thread(number, phase, thread):
    return LENGTH(number, phase, thread + 1)


# What of the second implementation a wrong body replaces.
WRONG = [
    (runs.Run, "list_of", twice), (runs.Run, "list_of", as_the_phase_before), (runs.Run, "list_of", left_out_for_ever),
    (runs.Run, "list_of", ascending), (runs.Run, "length_of", length_of_one_alone), (runs.Run, "turn", cutting_keepers),
    (runs.Run, "is_shuffled", on_after_the_last), (runs.Run, "is_shuffled", before_the_first), (shuffles, "length", length_of_another_thread),
]


class WrongBodies(unittest.TestCase):
    """Each wrong body of the law with a number is told by a run that the gate makes."""

    is_long = True

    def test_some_run_is_another(self):
        tried = [number_tests.setup_of(guest, number)[0] for guest, number in rows_of("race", "broadcast", "counter", "meeting")]
        right = [shown.trace(runs.Run(it)) for it in tried]
        for owner, name, wrong in WRONG:
            with self.subTest(wrong.__name__), mock.patch.object(owner, name, wrong):
                self.assertTrue(any(self.trace_of(it) != trace for it, trace in zip(tried, right)))

    def trace_of(self, setup):
        """Returns the trace of a run, or None if a wrong body makes one that can't be."""
        try:
            return shown.trace(runs.Run(setup, 10_000))
        except (runs.Endless, AssertionError, TypeError):
            return None


def rows_of(*names):
    """Returns the gate's rows of these guests, or of all."""
    return number_tests.rows(mock.Mock(names=names, numbers=200, brief=True, share="1/1"))


class Comparison(WithRoom):
    """What is told of a program, which a script is here."""

    RACE = number_tests.Guest("race", written_guests.elf("race"))

    def failures(self, script):
        """Returns what is told of a program in whose place this script is."""
        write_file(f"{self.room}/program", f"#!/bin/sh\n{script}\n", 0o755)
        tally = guest_runs.Tally()
        with mock.patch.dict(os.environ, DTHREADS=f"{self.room}/program"), contextlib.redirect_stderr(io.StringIO()) as said:
            number_tests.test_run(tally, self.room, (self.RACE, 0))
        return said.getvalue()

    def test_the_wanted_run_is_well(self):
        run = runs.Run(number_tests.setup_of(self.RACE, 0)[0])
        write_file(f"{self.room}/wanted", shown.trace(run))
        write_file(f"{self.room}/sums", shown.digest(run))
        self.assertEqual(self.failures("cp wanted trace; cp sums digest; exit 2"), "")

    def test_another_run_is_told(self):
        told = self.failures("echo 1 0 lock > trace; echo out; exit 1")
        self.assertIn("race --bound 2000 --workers 1: status and message: (1, ''), wanted (2, '')", told)
        self.assertEqual([it.split(": ")[1] for it in told.splitlines()], ["status and message", "trace", "output", "digest"])


class Rest(unittest.TestCase):
    def test_a_schedule_of_the_sample(self):
        run = runs.Run(runs.Setup(written_guests.elf("race")))
        schedule = next(it for it in run_rows.replays() if it.name == "race-one-worker")
        self.assertEqual(sorted(shown.schedule(run, 1).splitlines()), sorted(schedule.text.splitlines()))

    def test_a_way_is_fixed_by_its_number(self):
        guest = number_tests.Guest("race", b"")
        words = [" ".join(number_tests.setup_of(guest, it)[1]) for it in (0, 1, 3, 4, 6, 7, 15)]
        self.assertEqual(words, [
            "--bound 2000", "--bound 2000 --shuffle 1", "--bound 2000 --shuffle 3:3/30", "--bound 2000 --quantum 5 --shuffle 4",
            "--bound 10 --shuffle 6/60", "--bound 2000 --shuffle 7:3-10", "--bound 2000 --shuffle 15:1-5/10"])

    def test_what_the_debugger_says_of_a_run(self):
        run = runs.Run(runs.Setup(written_guests.elf("race")))
        self.assertEqual(number_tests.numbered_lines(run, 1), "1: 1 0 lock 00000000 00000000 00000000 -> 0 changed=0 ran=3\n")
        self.assertEqual(number_tests.position_of(run, 9), "turn 9 phase 4 thread 0")

    def test_a_run_of_too_many_turns_is_given_up(self):
        with self.assertRaises(runs.Endless):
            runs.Run(runs.Setup(number_tests.cleared(written_guests.elf("race"))), 3)

    def test_the_gate_tries_each_guest(self):
        self.assertEqual({it.name for it, _ in rows_of()}, {it.name for it in number_tests.guests()})
        self.assertLess(len(rows_of()), 500)
