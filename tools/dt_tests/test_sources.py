"""Tests of the check that sources make up no out-of-memory error: small sources, of which each bad line is marked."""
import os
import unittest

from dt_commands import made_up_errors
from dt_commands.texts import read_text

FOLDER = f"{os.path.dirname(os.path.abspath(__file__))}/data/sources"


class Sources(unittest.TestCase):
    def test_each_marked_line_and_no_other_is_refused(self):
        for name in sorted(it for it in os.listdir(FOLDER) if it.endswith(".txt")):
            text = read_text(f"{FOLDER}/{name}")
            wanted = [number for number, line in enumerate(text.split("\n"), 1) if line.endswith("// bad")]
            with self.subTest(name):
                self.assertEqual(wanted, [line for line, _ in made_up_errors.complaints(text)])

    def test_brackets_in_texts_are_no_brackets(self):
        self.assertEqual([], made_up_errors.complaints('fn f() { let a = "{("; match b { Fault::OutOfMemory => Other::OutOfMemory, } }'))
