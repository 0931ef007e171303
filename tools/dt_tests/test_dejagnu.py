"""Tests of the reader of GCC's directives."""
import unittest

from dt_commands.dejagnu import Directives, Selector, words_of

MACHINE = {"riscv32-unknown-elf", "tls", "c"}
SELECTORS = {
    "*-*-*": True, "c": True, "c++": False, "! c++": True, "*-*-linux* *-*-elf": True, "{ i?86-*-* x86_64-*-* } && lp64": False,
    "{ tls || avx } && c": True, "{ offload_target_nvptx || offload_target_amdgcn }": False, "x86_64-*-* riscv*-*-*": True,
}


def of(*lines):
    return Directives("\n".join(f"/* {{ dg-{it} }} */" for it in lines), MACHINE)


class Directive(unittest.TestCase):
    def test_words(self):
        self.assertEqual(words_of('"-O2 -g" { target { c && tls } } run'), ["-O2 -g", " target { c && tls } ", "run"])

    def test_selectors(self):
        for text, holds in SELECTORS.items():
            with self.subTest(text):
                self.assertEqual(Selector(text, MACHINE).holds(), holds)

    def test_what_runs(self):
        runs = {("do run",): True, (): True, ("do compile",): False, ("do run { target *-*-linux* }",): False,
                ("require-effective-target tls",): True, ("require-effective-target avx_runtime",): False, ('skip-if "" { *-*-* }',): False}
        for lines, is_run in runs.items():
            with self.subTest(lines):
                self.assertEqual(of(*lines).is_run(), is_run)

    def test_options(self):
        self.assertEqual(of().options(["-O2"]), ["-O2"])
        self.assertEqual(of('options "-O1 -g"', 'additional-options "-std=c99" { target c }').options(["-O2"]), ["-O1", "-g", "-std=c99"])
        self.assertEqual(of('additional-options "-std=c99" { target c++ }').options(["-O2"]), ["-O2"])

    def test_surroundings(self):
        found = of('set-target-env-var OMP_NUM_THREADS "2"', 'shouldfail "it stops"', 'output "one\\[0-9\\]"', "additional-sources other.c")
        self.assertEqual((found.variables(), found.is_to_fail(), found.output(), found.sources()),
                         (["OMP_NUM_THREADS=2"], True, "one[0-9]", ["other.c"]))
