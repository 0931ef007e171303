"""Tests of lanes, of the build of the program, and of how what was started ends."""
import argparse
import os
import shutil
import signal
import subprocess
import sys
import tempfile
import threading
import time
import unittest
from unittest import mock

from dt_commands import build, built_from, lanes, toolchain
from dt_commands.progress import minutes
from dt_commands.repository import TOP
from dt_commands.texts import read_text
from rooms import WithRoom

class Lanes(unittest.TestCase):
    def test_there_is_a_lane_at_least(self):
        self.assertGreaterEqual(lanes.count(), 1)
        self.assertEqual(lanes.count(7), 7)

    def test_a_time_is_minutes_and_seconds(self):
        self.assertEqual(minutes(190.9), "3:10")

    def test_no_more_are_at_work_than_there_are_lanes(self):
        lock, at_work, most = threading.Lock(), [], []

        def work():
            with lock:
                at_work.append(1)
                most.append(len(at_work))
            time.sleep(0.01)
            with lock:
                at_work.pop()

        lanes.tasks_in_lanes(3, [(it, work) for it in range(9)], lambda owner, _: [])
        self.assertEqual((max(most), len(most)), (3, 9))

    def test_it_is_told_what_is_still_at_work(self):
        seen, go_on = [], threading.Event()
        with mock.patch.object(lanes, "SILENCE", 0.01):
            lanes.tasks_in_lanes(1, [("one", go_on.wait)], lambda *_: [], lambda owners: (seen.extend(owners), go_on.set()))
        self.assertEqual(seen[0], "one")

    def test_tasks_that_a_task_asks_for_come_first(self):
        seen, asked = [], {"one": [("more", lambda: "more")]}

        def ended(owner, result):
            seen.append(result)
            return asked.pop(owner, [])

        lanes.tasks_in_lanes(1, [("one", lambda: "one"), ("two", lambda: "two")], ended)
        self.assertEqual(seen, ["one", "more", "two"])

    def test_an_error_of_a_task_is_raised(self):
        with self.assertRaises(KeyError):
            lanes.tasks_in_lanes(2, [("one", lambda: {}["none"])], lambda owner, result: [])


class Words(unittest.TestCase):
    def test_the_words_for_the_program_stay_as_they_are(self):
        words = ["run", "a b", "--", "-", "--lanes", "", "--word=x"]
        parser = argparse.ArgumentParser()
        build.arguments(parser)
        options = parser.parse_args(["--start", *(f"--word=:{it}" for it in words)])
        self.assertEqual((options.start, [it[1:] for it in options.word], options.lanes), (True, words, None))


class Processes(unittest.TestCase):
    def test_what_was_started_ends_with_who_started_it(self):
        """A process starts another one and is killed. The other one's end of a pipe closes, which ends this test."""
        tools = os.path.dirname(os.path.dirname(os.path.abspath(__file__)))
        text = f"import sys, time; sys.path.insert(0, {tools!r}); from dt_commands import toolchain\n"
        text += "toolchain.start(['sh', '-c', 'echo begun; exec sleep 60']); time.sleep(60)"
        for number in (signal.SIGTERM, signal.SIGKILL):
            with tempfile.TemporaryFile() as room:
                parent = subprocess.Popen([sys.executable, "-c", text], stdout=subprocess.PIPE, stderr=room)
                self.assertEqual(parent.stdout.readline(), b"begun\n")
                begun = time.time()
                parent.send_signal(number)
                self.assertEqual(parent.stdout.read(), b"")
                self.assertLess(time.time() - begun, 30)
                parent.stdout.close()
                parent.wait()

    def test_an_interrupt_is_told_and_has_its_status(self):
        tools = os.path.dirname(os.path.dirname(os.path.abspath(__file__)))
        text = f"import sys, time; sys.path.insert(0, {tools!r}); from dt_commands import toolchain\n"
        text += "toolchain.end_at_signals(lambda: print('interrupted', flush=True)); print('begun', flush=True); time.sleep(60)"
        for number in (signal.SIGINT, signal.SIGTERM, signal.SIGHUP):
            with subprocess.Popen([sys.executable, "-c", text], stdout=subprocess.PIPE) as ran:
                self.assertEqual(ran.stdout.readline(), b"begun\n")
                ran.send_signal(number)
                self.assertEqual(ran.stdout.read(), b"interrupted\n")
                self.assertEqual(ran.wait(), 128 + number)

    def test_input_is_not_read(self):
        ran = toolchain.start(["cat"], stdout=toolchain.PIPE)
        self.assertEqual(ran.communicate(), (b"", None))


# A command rt that proves nothing and writes down what it was asked for.
RT = """#!/bin/sh
echo "$*" >> "$NOTES"
case "$1" in
    version) echo "kit 1" ;;
    all) printf '%s\\n' "== low" "== side" "== high" "this is of high" "== command" "== summary"; exit ${REFUSED:-0} ;;
    run) mkdir -p out; printf '#!/bin/sh\\necho "built, $*"\\n' > out/command; chmod +x out/command ;;
esac
"""


class Whole(WithRoom):
    """Whole builds by ./dthreads in a checkout of four crates, with that command rt."""

    stdin = subprocess.DEVNULL

    def setUp(self):
        super().setUp()
        self.top, self.notes = f"{self.room}/top", f"{self.room}/notes"
        shutil.copytree(f"{TOP}/tools/dt_commands", f"{self.top}/tools/dt_commands", ignore=shutil.ignore_patterns("__pycache__"))
        for file in ("dthreads", "tools/dt", "tools/list-sources"):
            shutil.copy(f"{TOP}/{file}", f"{self.top}/{file}")
        self.write("top/crates.txt", "low:\nside:\nhigh: low\ncommand: high side\n")
        for name, lines in (("low", 9), ("side", 1), ("high", 9), ("command", 1)):
            self.write(f"top/crates/{name}/src/lib.rt", "//! Some.\n" * lines)
        self.write("top/bin/rt", RT, 0o755)

    def ran(self, *words, **environment):
        """Runs ./dthreads, and returns what it wrote and what it asked rt for."""
        open(self.notes, "w").close()
        environment = {"PATH": f"{self.top}/bin:{os.environ['PATH']}", "NOTES": self.notes, **environment}
        how = {"stdin": self.stdin, "stdout": subprocess.PIPE, "stderr": subprocess.PIPE, "universal_newlines": True}
        ran = subprocess.run([f"{self.top}/dthreads", *words], env=environment, **how)
        self.status, self.said = ran.returncode, ran.stderr
        return ran.stdout, read_text(self.notes).splitlines()

    def test_the_crates_are_built_and_the_program_is_started(self):
        wrote, asked = self.ran("run", "x y")
        self.assertEqual(wrote, "built, run x y\n")
        self.assertRegex("\n".join(asked), r"\Aversion\nall check --jobs \d+\nrun -- --help\Z")
        self.assertIn("3 of 4: high", self.said)
        self.assertIn("4 of 4: command", self.said)
        self.assertEqual(self.ran("run"), ("built, run\n", []))
        self.assertEqual(self.said, "")

    def test_it_is_told_what_is_read_from_a_terminal(self):
        self.ran("run")
        keeper, self.stdin = os.openpty()
        try:
            for words, said in (
                (["run", "a"], "dthreads: the program's input comes from the terminal: end it with Ctrl-D\n"),
                (["debug", "a"], "dthreads: gdb is to be on standard input: gdb-multiarch FILE -ex 'target remote | dthreads debug FILE'\n"),
                (["run", "a", "--input", "b"], ""), (["run", "--help"], ""), (["disasm", "a"], ""), ([], ""),
            ):
                with self.subTest(words):
                    self.assertEqual(self.ran(*words)[0], " ".join(["built,", *words]) + ("" if words else " ") + "\n")
                    self.assertEqual(self.said, said)
        finally:
            os.close(self.stdin)
            os.close(keeper)

    def test_so_many_lanes_are_at_work_as_are_asked_for(self):
        _, asked = self.ran("--build", "--lanes", "3")
        self.assertIn("all check --jobs 3", asked)
        self.assertIn("building 4 crates, 3 at a time", self.said)
        self.assertIn("there is no release/", self.said)

    def test_a_failure_shows_what_was_said_and_leaves_no_record(self):
        wrote, _ = self.ran("run", REFUSED="1")
        self.assertEqual((wrote, self.status), ("", 1))
        self.assertIn("this is of high", self.said)
        self.assertFalse(os.path.exists(f"{self.top}/{built_from.OF_BUILD}"))
        self.assertEqual(self.ran("run")[0], "built, run\n")
