"""Tests of the table of where the time goes: what perf prints is in parts, and a row has their percents."""
import unittest

from dt_commands import measure_where

LOOKS = """\
 7/7    10.000000:  55aa hart::near_run::run_near::<#cc> (/x/command)
 7/7    10.250000:  ffff clear_page_erms ([kernel.kallsyms])
 7/9    10.500000:  55ab commit::patch::Patch::of (/x/command)
 7/9    11.000000:  7fff [unknown] (/lib/libc.so.6)
"""


class Where(unittest.TestCase):
    def test_each_look_counts_for_its_thread_and_its_part(self):
        seconds, seen = measure_where.counted(LOOKS)
        self.assertEqual(seconds, 1.0)
        self.assertEqual(seen["caller"], {"Instructions": 1, "Kernel": 1})
        self.assertEqual(seen["others"], {"Pages": 1, "Other": 1})

    def test_a_row_has_percents(self):
        _, seen = measure_where.counted(LOOKS)
        text = measure_where.row("one", "caller", 1, seen["caller"], 4)
        self.assertEqual(text, ["one", "caller", "50", "50.0", "0.0", "0.0", "0.0", "0.0", "50.0", "0.0"])

    def test_the_first_part_that_fits_counts(self):
        for name, part in (("twins::view::View::near", "Instructions"), ("twins::pages::take", "Pages"), ("std_alloc::vec::grow", "Allocator")):
            self.assertEqual(measure_where.part_of(name, "(/x/command)"), part)
