"""Tries the changes of tools/changes.

A change states one sentence of the guest machine wrongly, in definition and code alike, so proofs pass: a row of test_parts,
test_conformance or test_guest_runs has to refuse it. All changes are built at once, into a copy without proofs. Its tests are run with each
change of a test, and each program once for each change of a row of it, on these rows alone; the three crates that have rows are run side
by side. Nothing is proved. It needs a C compiler.
"""
import os
import re
import subprocess
import tempfile

from dt_commands import changes, lanes
from dt_commands.changed_copy import copy
from dt_commands.changes import PROGRAMS, ROWS
from dt_commands.progress import Progress
from dt_commands.texts import write_file


def rt_try(crate, words, seconds):
    """Runs `rt try` in a folder of the copy, and returns what it printed."""
    ran = subprocess.run(
        ["rt", "try", "--seconds", str(seconds), *words], cwd=crate, env={**os.environ, "RT_ALLOW_C": "1"},
        stdout=subprocess.PIPE, stderr=subprocess.STDOUT, encoding="utf-8", errors="replace",
    )
    return ran.stdout


def attempt_tests(crate, seconds):
    """Runs the tests of a crate of the copy, and returns of each how it ended and what it said, and all that was printed."""
    said = rt_try(crate, ["--test"], seconds)
    if "test result:" not in said:
        raise SystemExit(f"the copy was not built or not run:\n{said}")
    return {it[0]: it[1:] for it in re.findall(r"^test (\S+) \.\.\. (\S+)(.*?)(?=^test )", said, re.M | re.S)}, said


def write_cases(cases, words, numbered):
    """Writes the cases of a program that is given these words first: one for each change, by its number, on its row, and case 0 with no
    change on all these rows.
    """
    for number, rows in [(0, sorted(set(numbered.values()))), *((it, [row]) for it, row in numbered.items())]:
        write_file(f"{cases}/change_{number}", f"{number}\n")
        write_file(f"{cases}/change_{number}.args", "\n".join([*words, *rows]) + "\n")


def cases_in(said):
    """Returns of each case that the program ran, by its number, how it ended and what its rows said."""
    ended = {}
    for number, text in re.findall(r"^== change_(\d+)\b[^\n]*\n(.*?)(?=^== |\Z)", said, re.M | re.S):
        lines = [it for it in text.splitlines() if ": " in it and not it.startswith(("checked:", "interpreter:", "races:", "run="))]
        differ = [it for it in lines if not it.endswith(": ok")]
        ended[int(number)] = ("FAILED" if differ else "ok" if lines else "not run", "\n".join(differ))
    for number, how in re.findall(r"^case=change_(\d+) run=(\S+)", said, re.M):
        if how != "ended":
            # (a limit may be the machine's, and says nothing of the row)
            judged = "no answer" if how == "no-answer" else "FAILED"
            ended[int(number)] = (judged, f"{ended.get(int(number), ('', ''))[1]}\nrun={how}")
    return ended


def attempt_rows(program, found, folder, seconds):
    """Runs a program of the copy for each change of its rows, and for none on all these rows. Returns of each, by its number, how it
    ended and what its rows said, and all that was printed.
    """
    asked = {number: it.program_row() for number, it in enumerate(found, 1)}
    numbered = {number: row for number, (of, row) in asked.items() if of == program}
    if not numbered:
        return {}, ""
    crate, cases = f"{folder}/crates/{program}", f"{folder}/cases-{program}"
    write_cases(cases, PROGRAMS[program], numbered)
    words = [it for name in sorted(os.listdir(f"{crate}/data")) for it in ("--data", f"{name}=data/{name}")]
    said = rt_try(crate, ["--cases", cases, *words], seconds)
    ended = cases_in(said)
    if 0 not in ended:
        raise SystemExit(f"the copy was not built or not run:\n{said}")
    return ended, said


def crates_of(found):
    """Returns the crates that have a test of these changes."""
    files = [it.test()[0] for it in found if not it.program_row()[0]]
    return [crate for crate in ROWS if any(file.startswith(f"crates/{crate}/") for file in files)]


class Attempts:
    """What changes came to, gathered as the crates that have rows of them end."""

    def __init__(self, found, progress):
        self.found, self.progress = found, progress
        self.ended, self.tests, self.broken, self.said = {}, {}, [], {}

    def tasks(self, folder, seconds):
        """Returns each crate with a call that tries its rows in the copy, the one that takes longest first."""
        rows = [(it, lambda it=it: attempt_rows(it, self.found, folder, seconds)) for it in reversed(PROGRAMS)]
        return rows + [(it, lambda it=it: attempt_tests(f"{folder}/crates/{it}", seconds)) for it in crates_of(self.found)]

    def take(self, crate, result):
        """Takes what a crate's rows came to."""
        ended, self.said[crate] = result
        if crate in PROGRAMS:
            how, message = ended.pop(0, ("ok", ""))
            self.broken += [f"{crate}: {message}"] if how != "ok" else []
            self.ended.update(ended)
        else:
            self.tests.update(ended)
        self.progress.done += 1
        return []

    def verdicts(self):
        """Returns of each change, by its number, how its test or its row ended and what that said."""
        for number, change in enumerate(self.found, 1):
            if not change.program_row()[0]:
                module = change.row.rsplit("::", 1)[0]
                self.ended[number] = self.tests.get(f"{module}::change_{number}", ("not run", ""))
        return self.ended

    def wrong_already(self):
        """Returns the tests and rows that fail with no change."""
        return self.broken + [it for it, (how, _) in self.tests.items() if "::change_" not in it and how != "ok"]


def attempt(found, options):
    """Tries the changes, with the crates that have their rows side by side."""
    count = len(PROGRAMS) + len(crates_of(found))
    with tempfile.TemporaryDirectory(prefix="sweep-changes-") as folder, Progress("crates with rows", count) as progress:
        attempts = Attempts(found, progress)
        copy(found, folder)
        lanes.tasks_in_lanes(lanes.count(options.lanes), attempts.tasks(folder, options.seconds), attempts.take)
    return attempts


def tried(found, options):
    """Tries the changes, prints each that survives, and returns the status."""
    attempts = attempt(found, options)
    broken, ended = attempts.wrong_already(), attempts.verdicts()
    for test in broken:
        print(f"fails with no change: {test}")
    survived = []
    for number, change in enumerate(found, 1):
        how, message = ended.get(number, ("not run", ""))
        if how == "no answer":
            survived.append(change)
            print(f"gave no answer within the limit of time: {change.name} ({change.row}): {change.sentence}")
        elif how != "FAILED":
            survived.append(change)
            print(f"survives: {change.name} ({change.row}): {change.sentence}")
        elif change.case not in message:
            survived.append(change)
            print(f"refused by another row: {change.name} ({change.row}, {change.case}): {message.strip()}")
    if options.show:
        print("\n".join(attempts.said.values()))
    print(f"{len(found)} changes tried, {len(survived)} survive")
    return 1 if broken or survived else 0


def arguments(parser):
    parser.add_argument("names", nargs="*", metavar="NAME", help="the changes to try (default: all)")
    parser.add_argument("--lanes", type=int, metavar="N", help=lanes.HELP)
    parser.add_argument("--seconds", type=int, default=900, metavar="N", help="how long a test or a program may run (default: 900)")
    parser.add_argument("--show", action="store_true", help="print all that the tests and the program said")
    parser.add_argument("--apply", metavar="FOLDER", help="make the named changes in this copy of the repository, and try nothing")


def sweep(options):
    """Tries changes of definitions and code: each must be refused by the row that it names. Prints each that survives."""
    found = changes.listed(options.names)
    if not options.apply:
        return tried(found, options)
    if not options.names:
        raise SystemExit("tools/dt sweep changes --apply FOLDER: name the changes to make")
    for change in found:
        change.apply(options.apply)
    return 0
