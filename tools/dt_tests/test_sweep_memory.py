"""Tests of the sweep of refused memory: it must not pass if its refusals don't reach the program. Runs are made up."""
import contextlib
import io
import unittest

from dt_commands import sweep_memory
from dt_commands.sweep_memory import Answer, Sweep

REQUESTS = 50
TRUE = (0, b"text\n", b"", [b"trace"])
ENDED = (*sweep_memory.OUT_OF_MEMORY[:1], b"te", sweep_memory.OUT_OF_MEMORY[1], [b""])


class Made(Sweep):
    """A sweep whose runs aren't made: `answers(number)` is what a run gives whose request of this number is to be refused, 0 if none is."""

    def __init__(self, answers):
        super().__init__("/nowhere", ["dthreads", "run", "guest.elf", "--workers", "4"])
        self.answers, self.asked = answers, []

    def run(self, **settings):
        self.asked.append(settings["REFUSE"])
        return self.answers(settings["REFUSE"])


def refusing(number, requests=REQUESTS):
    """What a program answers that makes so many requests, and ends without memory."""
    is_refused = 0 < number <= requests
    return Answer(*(ENDED if is_refused else TRUE), requests, int(is_refused))


class Sweeps(unittest.TestCase):
    def swept(self, answers):
        """Returns what a sweep says, or why it fails."""
        one, said = Made(answers), io.StringIO()
        with contextlib.redirect_stdout(said):
            try:
                one.each("guest")
            except SystemExit as it:
                return f"failed: {it}"
        return said.getvalue()

    def test_each_request_is_refused(self):
        self.assertEqual(self.swept(refusing), "guest: 50 of 50 requests refused in turn, 50 times out of memory\n")

    def test_a_library_that_refuses_nothing_is_found(self):
        said = self.swept(lambda number: Answer(*TRUE, REQUESTS, 0))
        self.assertEqual(said, "failed: guest: 0 requests were refused, not 30, and the longest run makes 50")

    def test_a_library_that_counts_nothing_is_found(self):
        self.assertIn("no answer was out of memory", self.swept(lambda number: Answer(*TRUE, 0, 0)))

    def test_refusals_that_nobody_heeds_are_found(self):
        said = self.swept(lambda number: Answer(*TRUE, REQUESTS, int(0 < number <= REQUESTS)))
        self.assertIn("failed: guest: no answer was out of memory", said)

    def test_refusals_that_end_early_are_found(self):
        self.assertIn("failed: guest: 29 requests", self.swept(lambda number: refusing(number) if number < 30 else Answer(*TRUE, REQUESTS, 0)))

    def test_a_tenth_of_the_longest_run_is_too_much(self):
        # (of 50 requests the undisturbed run makes 44, and the six last ones are in one run alone)
        self.assertIn("failed: guest: 44 requests", self.swept(lambda number: refusing(number, 50 if number == 1 else 44)))
        self.assertIn("45 of 50", self.swept(lambda number: refusing(number, 50 if number == 1 else 45)))

    def test_a_short_run_does_not_end_the_sweep(self):
        self.assertIn("48 of 50", self.swept(lambda number: refusing(number, 7 if number in (8, 9) else 50)))

    def test_another_answer_is_found(self):
        wrong = Answer(0, b"other\n", b"", [b"trace"], REQUESTS, 1)
        self.assertIn("another answer with request 7 refused", self.swept(lambda number: wrong if number == 7 else refusing(number)))

    def test_runs_of_several_host_threads_differ_by_20_requests_at_most(self):
        self.assertLessEqual(sweep_memory.SPREAD, 20)
