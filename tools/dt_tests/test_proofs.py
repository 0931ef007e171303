"""Tests of `tools/dt measure proofs`, over files with times that are given."""
import os

from dt_commands import measure_proofs
from rooms import WithRoom

# Files of a check in the order in which they are written, and the seconds since the one before.
FILES = [
    ("Rattle-small-specs.Numbers", 0),
    ("Rattle-small-proofs.number.Number.value.Code.Mir.decls", 1),
    ("Rattle-small-proofs.number.Number.value.Lts", 6),
    ("Rattle-small-proofs.number.Number.value.Kinds-2", 1),
    ("Rattle-small-proofs.most.Proof.decls", 2),
    ("Rattle-small-proofs.Values.decls", 3),
    ("Rattle-small", 1),
    ("Rattle-small-proofs.most.Met", 1000),
]


class Proofs(WithRoom):
    def setUp(self):
        super().setUp()
        time = 10**9
        for at, (name, seconds) in enumerate(FILES):
            file = f"{'records/' * (at % 2)}{name}.oantt"
            time += seconds
            self.write(file, "")
            os.utime(f"{self.room}/{file}", (time, time))
        self.files = measure_proofs.kept_in(self.room)

    def test_the_files_come_in_the_order_of_their_times(self):
        self.assertEqual([name for _, name in self.files], [name for name, _ in FILES])

    def test_a_time_counts_for_its_function_and_a_long_pause_for_none(self):
        functions, parts = measure_proofs.times_of(self.files)
        self.assertEqual(functions, {"number::Number::value": 8, "most": 2, "Values.decls": 3, "Rattle-small": 1})
        self.assertEqual(parts, {"Lts": 6, "Code": 1, "Kinds": 1, "Proof": 2, "other": 4})

    def test_the_dearest_come_first_and_the_parts_last(self):
        lines = measure_proofs.shown("small", *measure_proofs.times_of(self.files), 2)
        self.assertEqual([it.split()[0] for it in lines], ["8.0", "3.0", "14.0"])
        self.assertTrue(lines[-1].endswith("small: Lts 6, other 4, Proof 2, Code 1, Kinds 1"))
