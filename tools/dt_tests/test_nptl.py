"""Tests of what is taken of glibc's tests: which the makefiles name, and which apply."""
import os
import tempfile
import unittest

from dt_commands import nptl_tests

FILES = {
    "nptl/Makefile": "tests = tst-one tst-two \\\n  tst-three\n",
    "sysdeps/pthread/Makefile": "tests += tst-four tst-absent\n",
    "nptl/tst-one.c": "pthread_t thread;",
    "nptl/tst-two.c": "pid_t child = xfork ();",
    "nptl/tst-three.c": '#include "tst-four.c"\n',
    "sysdeps/pthread/tst-four.c": "void *handle = xdlopen (name, 0);",
}


class Taken(unittest.TestCase):
    def test_names_and_reasons(self):
        with tempfile.TemporaryDirectory() as folder:
            for name, text in FILES.items():
                os.makedirs(os.path.dirname(f"{folder}/{name}"), exist_ok=True)
                with open(f"{folder}/{name}", "w", encoding="utf-8") as it:
                    it.write(text)
            found = {it.name: nptl_tests.reason(it) for it in nptl_tests.tests(folder)}
        self.assertEqual(found, {"tst-one": None, "tst-two": "processes", "tst-three": "shared libraries", "tst-four": "shared libraries"})

    def test_wanted_ends(self):
        signal, status = "#define EXPECTED_SIGNAL SIGUSR1\n", "# define EXPECTED_STATUS 3\n"
        ends = {("", 0): True, ("", 1): False, (signal, 138): True, (signal, 0): False, (status, 3): True, (status, 0): False}
        for (text, end), is_wanted in ends.items():
            with self.subTest((text, end)):
                self.assertEqual(nptl_tests.is_wanted(text, end), is_wanted)

    def test_the_page_tells_why_tests_fail(self):
        self.assertIn("named pipes", nptl_tests.failing()["tst-umask1"])
