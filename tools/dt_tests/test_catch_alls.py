"""Tests of the look for arms for all other calls or stops: small texts, of which each line that is to be found is marked."""
import unittest

from dt_commands import catch_alls
from rooms import data

SOURCE = data("catch-alls-source.txt")
# (the arm `Some(_)` with the `matches!` behind it is one line)
ALSO = "Some(_) => matches!"

DEFINITIONS = data("catch-alls-definitions.txt")


def marked(text):
    return [at for at, line in enumerate(text.split("\n"), 1) if line.endswith(" found") or ALSO in line]


class CatchAlls(unittest.TestCase):
    def test_each_marked_line_of_a_source_and_no_other_is_found(self):
        self.assertEqual(marked(SOURCE), catch_alls.of_source(SOURCE))

    def test_each_marked_clause_and_no_other_is_found(self):
        found = catch_alls.of_definitions(DEFINITIONS)
        self.assertEqual(list(zip(marked(DEFINITIONS), ["wait_by", "stop_words"])), found)
