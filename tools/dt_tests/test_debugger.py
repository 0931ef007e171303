"""Tests of what the commands of gdb in guest/debugger are made of: lists of findings, instructions, and answers of `dthreads debug`."""
import sys
import unittest

from dt_commands import guest_runs
from rooms import WithRoom

sys.path.insert(0, f"{guest_runs.KIT}/debugger")
import engine
import findings
import origins

RACE = "race address=0001b240 bytes=4 store thread=1 turn=16{0} pc=000100a4 load thread=2 turn=19{1} pc=0001009c object=counter+0 in=add+12 in=add+4"
FREED = "freed address=20000410 bytes=4 load thread=2 turn=31+12 pc=00010114 freed-by thread=1 turn=28+3 in=reader+20 in=main+64 block=20000400+48"
ORDER = "order a+0 b+0 thread=1 turn=9+2 in=left+16 thread=2 turn=12+2 in=right+16"
MISUSE = "misuse unlock-of-anothers object=m+0 thread=2 turn=14+9 in=work+36 held-by thread=1 since=11+4"
BLOCKED = "blocked thread=2 in=work+20 call=pthread_mutex_lock object=m+0 held-by thread=1 since=8+3 done"


class Lists(unittest.TestCase):
    def test_a_race_has_two_sites_in_both_forms_of_time(self):
        for first, second, wanted in (("", "", (None, None)), ("+8", "+5", (8, 5))):
            found = findings.finding_of(RACE.format(first, second))
            self.assertEqual((found.kind, found.objects, found.address, found.length), ("race", ["counter+0"], 0x1B240, 4))
            self.assertEqual([(it.does, it.thread, it.turn, it.pc, it.function) for it in found.sites],
                             [("store", "1", 16, 0x100A4, "add+12"), ("load", "2", 19, 0x1009C, "add+4")])
            self.assertEqual(tuple(it.instruction for it in found.sites), wanted)

    def test_lines_of_sources_are_left_out(self):
        line = RACE.format("", "").replace("pc=000100a4", "pc=000100a4 at=a b.c:13").replace("+0 in", "+0 at=race.c:8 in")
        self.assertEqual(findings.finding_of(line).sites, findings.finding_of(RACE.format("", "")).sites)

    def test_other_kinds(self):
        freed, order, misuse = map(findings.finding_of, (FREED, ORDER, MISUSE))
        self.assertEqual([(it.does, it.turn, it.instruction) for it in freed.sites], [("load", 31, 12), ("freed-by", 28, 3)])
        self.assertEqual([it.turn for it in findings.in_time(freed)], [28, 31])
        self.assertEqual((order.objects, [(it.does, it.turn, it.function) for it in order.sites]), (["a+0", "b+0"], [("", 9, "left+16"), ("", 12, "right+16")]))
        self.assertEqual((misuse.kind, [(it.does, it.turn, it.instruction) for it in misuse.sites]), ("unlock-of-anothers", [("", 14, 9), ("held-by", 11, 4)]))

    def test_what_is_no_finding_is_kept_as_it_is(self):
        every, others = findings.findings_of(f"{ORDER}\n\nleft out=7\n{BLOCKED}\nrace of words\n")
        self.assertEqual(([it.kind for it in every], others), (["order"], ["left out=7", BLOCKED, "race of words"]))


class Instructions(unittest.TestCase):
    """What an instruction does with memory, with 16 times its number in each register."""

    REGISTERS = [16 * it for it in range(33)]

    def does(self, word):
        found = engine.access_of(word, self.REGISTERS)
        return found and (found.kind, found.address, found.length, found.source)

    def test_stores(self):
        # sw x5,-4(x2), sh x6,2(x3), sb x7,0(x0)
        self.assertEqual(self.does(0xFE512E23), ("store", 28, 4, 5))
        self.assertEqual(self.does(0x00619123), ("store", 50, 2, 6))
        self.assertEqual(self.does(0x00700023), ("store", 0, 1, 7))

    def test_loads_and_others(self):
        # lw x5,-16(x1), lbu x5,2047(x1), lhu x5,0(x1), ecall, ebreak, addi
        self.assertEqual(self.does(0xFF00A283), ("load", 0, 4, None))
        self.assertEqual(self.does(0x7FF0C283), ("load", 2063, 1, None))
        self.assertEqual(self.does(0x0000D283), ("load", 16, 2, None))
        self.assertEqual((self.does(0x73), self.does(0x100073), self.does(0x13)), (("call", 0, 0, None), None, None))

    def test_an_address_wraps(self):
        self.assertEqual(engine.access_of(0xFE512E23, [0] * 33).address, 2**32 - 4)


# A `dthreads debug` that answers as many packets as it has answers, without looking at them.
SCRIPT = """#!/usr/bin/env python3
import sys
answers = {answers!r}
read = sys.stdin.buffer.read
for answer in ["PacketSize=4000", "OK"] + answers:
    while read(1) not in (b"$", b""):
        pass
    while read(1) not in (b"#", b""):
        pass
    read(2)
    for it in answer.split("|"):
        sys.stdout.buffer.write(b"$%s#%02x" % (it.encode(), sum(it.encode()) % 256))
    sys.stdout.buffer.flush()
"""


class Answers(WithRoom):
    def engine(self, *answers):
        self.write("debug", SCRIPT.format(answers=list(answers)), 0o755)
        found = engine.Engine([f"{self.room}/debug"])
        self.addCleanup(found.end)
        return found

    def text(self, text):
        return text.encode().hex()

    def test_a_text_comes_in_pieces_or_as_the_answer(self):
        told = "turn 16 phase 6 thread 1 (gdb thread id 2), 6 instructions into the turn; step 4241\n"
        for answer in (f"O{self.text(told[:9])}|O{self.text(told[9:])}|OK", self.text(told)):
            self.assertEqual(self.engine(answer).where(), engine.Position(16, 6, 4241, 6, 1, False))
        self.assertEqual(self.engine("O" + self.text("turn 2 phase 1 thread 0 (gdb thread id 1), the run's end; step 7\n") + "|OK").where().is_end, True)

    def test_a_jump_goes_past_new_threads(self):
        chosen = "O" + self.text("the next resume goes to step 5\n") + "|OK"
        it = self.engine(chosen, "T05create:;thread:2;", "T05create:;thread:3;", "T00thread:3;")
        self.assertEqual(it.go(16, 3), True)
        self.assertEqual(self.engine("O" + self.text("no such position\n") + "|OK").go(999), False)

    def test_writers(self):
        lines = "turn 16 thread 1: 00000000 -> e8030000\nturn 19 thread 2: 0000 -> e8030000 (shared before: e8030000)\n"
        zeros, stored = bytes(4), bytes.fromhex("e8030000")
        wanted = [engine.Write(16, 1, zeros, stored, zeros), engine.Write(19, 2, zeros, stored, stored)]
        self.assertEqual(self.engine(self.text(lines)).writers(0x1B240, 4), wanted)

    def test_a_byte_that_another_turn_stored_is_asked_for_alone(self):
        first = "turn 4 thread 1: 0000 -> 0700\nturn 5 thread 2: 0000 -> 0709 (shared before: 0700)\n"
        it = self.engine(self.text(first), self.text("turn 4 thread 1: 00 -> 07\n"))
        self.assertEqual([[one.turn for one in some] for some in origins.writes_of(it, 0x1000, 2)], [[4], [5]])

    def test_an_end_is_told(self):
        with self.assertRaises(engine.Failure):
            self.engine().where()
        with self.assertRaises(engine.Failure):
            engine.Engine([f"{self.room}/nothing"])


if __name__ == "__main__":
    unittest.main()
