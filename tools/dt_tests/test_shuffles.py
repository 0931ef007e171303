"""What a schedule's number draws: the mixing by known outputs and its averages, the laws of lists and lengths, and rows by hand."""
import unittest

from dt_commands import shuffles

# The first outputs of SplitMix64 with the seed 1234567, and the step of its state.
KNOWN = [6457827717110365317, 3203168211198807973, 9817491932198370423, 4593380528125082431, 16408922859458223821]
STEP = 0x9E3779B97F4A7C15
THREADS = [0, 1, 3, 4, 9, 200]
NUMBERS, PHASES = range(1, 41), range(1, 131)


class Draws(unittest.TestCase):
    def test_known_outputs(self):
        self.assertEqual([shuffles.mix((1234567 + it * STEP) % 2**64) for it in range(len(KNOWN))], KNOWN)

    def test_averages_of_many_draws(self):
        words = [shuffles.draw(it % 97 + 1, it % 11 + 1, it // 97, it % 7) for it in range(100_000)]
        self.assertAlmostEqual(sum(words) / len(words) / 2**64, 0.5, delta=0.005)
        for divisor in (2, 3, 4, 6):
            shares = [sum(it % divisor == rest for it in words) * divisor / len(words) for rest in range(divisor)]
            self.assertTrue(all(abs(it - 1) < 0.05 for it in shares), shares)


class Lists(unittest.TestCase):
    def each(self):
        return ((number, phase, shuffles.phase_list(number, phase, THREADS)) for number in NUMBERS for phase in PHASES)

    def test_a_part_each_once_and_not_empty(self):
        for number, phase, listed in self.each():
            self.assertTrue(listed and len(set(listed)) == len(listed) and set(listed) <= set(THREADS), (number, phase))

    def test_all_take_part_in_every_64th_phase(self):
        self.assertTrue(all(sorted(listed) == THREADS for _, phase, listed in self.each() if phase % 64 == 0))

    def test_one_thread_is_the_list(self):
        self.assertTrue(all(shuffles.phase_list(number, phase, [5]) == [5] for number in NUMBERS for phase in PHASES))

    def test_nobody_is_none(self):
        self.assertEqual(shuffles.phase_list(1, 1, []), [])

    def test_each_kind_of_part_is_drawn(self):
        sizes = {number: {len(shuffles.phase_list(number, phase, THREADS)) for phase in range(1, 64)} for number in NUMBERS}
        self.assertTrue(any(it == {len(THREADS)} for it in sizes.values()) and any(it == {1} for it in sizes.values()))
        self.assertTrue(any(len(it) > 2 for it in sizes.values()))


class Lengths(unittest.TestCase):
    def test_at_least_one_and_below_two_to_the_sixteenth(self):
        found = [shuffles.length(number, phase, thread) for number in NUMBERS for phase in range(1, 20) for thread in THREADS]
        self.assertTrue(all(it is None or 1 <= it < 2**16 for it in found))
        self.assertTrue(1 in found and None in found and max(it or 0 for it in found) > 2**15)
