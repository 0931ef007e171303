"""Tests of the list of real programs and of what builds them."""
import os
import tempfile
import unittest

from dt_commands import real_list, real_programs


class Listed(unittest.TestCase):
    def test_each_has_a_name_of_its_own_packages_commands_and_runs(self):
        self.assertEqual(len({it.name for it in real_list.PROGRAMS}), len(real_list.PROGRAMS))
        for it in real_list.PROGRAMS:
            with self.subTest(it.name):
                self.assertTrue(it.packages and it.runs)
                self.assertIn("$OUT", it.commands[-1])

    def test_inputs_are_the_same_in_each_call(self):
        for it in (real_list.numbers, real_list.own_text):
            self.assertEqual(it(), it())
        self.assertEqual(len(set(real_list.numbers().split())), 40009)


class Built(unittest.TestCase):
    def failure(self, command):
        with tempfile.TemporaryDirectory() as room, self.assertRaises(real_programs.Failure) as raised:
            real_programs.shell(command, room, {})
        return str(raised.exception)

    def test_a_failure_has_the_first_error_or_else_the_last_line(self):
        self.assertEqual(self.failure("echo one; echo a.c:1: error: two; exit 1"), "doesn't build: a.c:1: error: two")
        self.assertEqual(self.failure("echo one; echo two; exit 1"), "doesn't build: two")

    def test_the_command_of_the_host_is_taken_in_the_same_version_alone(self):
        with tempfile.TemporaryDirectory() as room:
            path = f"{room}/tool"
            with open(path, "w", encoding="utf-8") as it:
                it.write("#!/bin/sh\necho 'tool (a package) 1.2'\n")
            os.chmod(path, 0o755)
            program = real_list.Program("tool", host=path)
            self.assertEqual(real_programs.of_host(program, "1.2"), path)
            self.assertIsNone(real_programs.of_host(program, "1.3"))
            self.assertIsNone(real_programs.of_host(real_list.Program("other"), "1.2"))

    def test_an_archive_is_found_with_its_version(self):
        with tempfile.TemporaryDirectory() as room:
            archives = real_programs.Archives(room)
            open(f"{room}/tool_1.2+ds.orig.tar.xz", "w", encoding="utf-8").close()
            self.assertEqual(archives.find("tool"), (f"{room}/tool_1.2+ds.orig.tar.xz", "1.2+ds"))
            self.assertIsNone(archives.find("too"))
