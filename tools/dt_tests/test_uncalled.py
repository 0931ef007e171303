"""Tests of the look for functions that nothing calls, on small sources of two crates."""
import unittest

from dt_commands import uncalled
from rooms import data

UPPER = data("uncalled-upper.txt")
LOWER = data("uncalled-lower.txt")
SEES = {"lower": {"lower"}, "upper": {"lower", "upper"}}


def found(*listed):
    parts = [it for crate, text in (("upper", UPPER), ("lower", LOWER)) for it in uncalled.parts_of(f"crates/{crate}/src/main.rt", text)]
    return [it.label for it in uncalled.uncalled(parts, SEES, listed)]


class Uncalled(unittest.TestCase):
    def test_what_main_reaches_is_called_and_what_a_lower_crate_would_call_above_it_is_not(self):
        self.assertEqual(["upper/first", "upper/second", "lower/Table::seen", "lower/show"], found())

    def test_what_is_listed_calls_others(self):
        self.assertEqual(["lower/Table::seen", "lower/show"], found("upper/first"))
