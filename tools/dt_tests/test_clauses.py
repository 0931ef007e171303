"""Tests of the look at the clauses of contracts, on a small source."""
import unittest

from dt_commands import clauses
from rooms import data

SOURCE = data("clauses.txt")


class Clauses(unittest.TestCase):
    def test_clauses_have_their_kinds_and_texts(self):
        texts = [it[0] for it in clauses.clauses_of(SOURCE)]
        self.assertEqual(texts[0], ("requires", "of % 2 ≡ 0"))
        self.assertEqual([it[0] for it in texts], ["requires", "ensures", "requires", "ensures", "ensures"])

    def test_one_stands_again_if_kind_and_text_are_the_same(self):
        self.assertEqual(clauses.repeated(clauses.clauses_of(SOURCE)), 1)

    def test_long_lines_are_told_by_their_numbers(self):
        self.assertEqual(clauses.long_lines(clauses.clauses_of(SOURCE)), [])
        more = " + 0" * 40
        self.assertEqual(clauses.long_lines(clauses.clauses_of(SOURCE.replace("/ 4", f"/ 4{more}"))), [12])
        self.assertEqual(clauses.long_lines(clauses.clauses_of(SOURCE.replace("0 }\n    ensures*", f"0{more} }}\n    ensures*"))), [11])
