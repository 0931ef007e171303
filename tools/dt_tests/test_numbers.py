"""Tests of the commands that run guests with numbers: what they make of a number, and what they tell. No guest is run."""
import unittest

from dt_commands import explore_tests, guest_tests, numbered_runs, variation_tests
from dt_commands.texts import rows_of


class Numbers(unittest.TestCase):
    def test_a_number_and_its_choices_come_behind_the_mark(self):
        image = b"code" + numbered_runs.MARK + bytes(8) + b"data"
        self.assertEqual(numbered_runs.numbered(image, 258, 3), b"code" + numbered_runs.MARK + b"\2\1\0\0\3\0\0\0data")

    def test_a_command_has_the_file_the_number_and_the_choices(self):
        words = numbered_runs.words_of("dthreads run FILE --shuffle NUMBER '/ CHOICES' CHOICES", "a b.elf", 7, 0)
        self.assertEqual(words, ["dthreads", "run", "a b.elf", "--shuffle", "7", "/ 0", "0"])


class Lists(unittest.TestCase):
    def test_a_bug_tells_its_first_number_and_how_many_show_it(self):
        bug = explore_tests.Bug("two_locks", "121", "locks", "in", "both", "orders")
        bug.tried, bug.numbers = 100, [3, 9]
        self.assertEqual(bug.row().split(), ["two_locks", "locks", "in", "both", "orders", "-", "3", "2", "of", "100"])
        self.assertAlmostEqual(bug.chance(2), 1 - 0.98 ** 2)
        bug.plain, bug.numbers = True, []
        self.assertEqual(bug.row().split()[-5:], ["yes", "-", "0", "of", "100"])

    def test_what_a_number_may_change_is_a_program_of_the_tests(self):
        names = {it[0] for it in rows_of(f"{guest_tests.FOLDER}/list")}
        others = rows_of(f"{variation_tests.FOLDER}/others")
        self.assertEqual([it[0] for it in others if it[0] not in names], [])
        self.assertEqual([it[0] for it in others if len(it) < 2], [])
