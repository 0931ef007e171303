"""Tests of what is read of hints, and of the hints that the library must have."""
import unittest

from dt_commands import hints
from dt_commands.hints import Hint


class Words(unittest.TestCase):
    """The words of the hints, as an assembler encodes them."""

    def test_each_hint_has_its_word(self):
        self.assertEqual(hints.kind_of(0x00052033), "acquire")  # slt x0, a0, x0
        self.assertEqual(hints.kind_of(0x00b02033), "release")  # slt x0, x0, a1
        self.assertEqual(hints.kind_of(0x00003033), "enter")    # sltu x0, x0, x0
        self.assertEqual(hints.kind_of(0x00002033), "leave")    # slt x0, x0, x0
        self.assertEqual(hints.kind_of(0x00b53033), "fresh")    # sltu x0, a0, a1

    def test_what_is_near_them_is_none(self):
        others = {"slt x0, a0, a1": 0x00b52033, "sltu x0, a0, x0": 0x00053033, "sltu x0, x0, a0": 0x00a03033, "slt a0, a0, x0": 0x00052533,
                  "sub x0, a0, x0": 0x40050033, "slti x0, a0, 0": 0x00052013, "mulhsu x0, a0, x0": 0x02052033, "nop": 0x00000013}
        for name, word in others.items():
            with self.subTest(name):
                self.assertIsNone(hints.kind_of(word))


class Balance(unittest.TestCase):
    def wrong(self, *kinds):
        return list(hints.unbalanced([Hint(thread, 0x100, kind, 0, 0) for thread, kind in kinds]))

    def test_pairs_of_different_threads_may_cross_and_nest(self):
        self.assertEqual(self.wrong((0, "enter"), (1, "enter"), (0, "enter"), (0, "leave"), (0, "leave"), (1, "fresh"), (1, "leave")), [])

    def test_a_thread_may_end_within_one_pair(self):
        self.assertEqual(self.wrong((0, "enter"), (0, "leave"), (0, "enter")), [])
        self.assertEqual(self.wrong((1, "enter"), (1, "enter")), ["thread 1 has entered 2 times at its end"])

    def test_what_is_left_was_entered_by_the_same_thread(self):
        self.assertEqual(self.wrong((0, "enter"), (1, "leave")), ["thread 1 leaves at 00000100 what it hasn't entered"])


class Lists(unittest.TestCase):
    def test_a_lost_hint_is_another_text(self):
        with open(hints.WANTED, encoding="utf-8") as it:
            rows = dict(line.rstrip("\n").split(":", 1) for line in it)
        wanted = {
            "thread 0 pthread_mutex_lock": " caller(main) enter acquire(mutex) lock(mutex) leave",
            "thread 0 pthread_mutex_unlock": " caller(main) enter release(mutex) unlock(mutex) leave",
            "thread 0 pthread_rwlock_rdlock": " caller(main) enter acquire(rwlock) share(rwlock) leave",
            "thread 0 sem_post": " enter release(semaphore) leave", "thread 0 malloc": " fresh(heap, 48)", "thread 1 in dthreads_own_thread_leave": " end_with_lock(other_mutex)",
        }
        self.assertEqual({name: rows[name] for name in wanted}, wanted)

    def test_the_programs_are_there(self):
        for name in (hints.NAME, *hints.BALANCED):
            with self.subTest(name):
                self.assertTrue(hints.guest_tests.source_of(name))
