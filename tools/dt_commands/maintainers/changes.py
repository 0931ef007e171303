"""The changes of tools/changes: each states one sentence of the guest machine wrongly, in a definition and in the code alike.

A file tools/changes/NAME.change has lines `part:` and `sentence:`, a line `row:` with the test that must fail (`MODULE::TEST` of
test_conformance, or `PROGRAM::ROW`, one row of test_parts or test_guest_runs or all that begin with these words), mostly one `case:` with
what the failed row's message says, and edits as those of must-fail have them: lines `file:`, `old:` and `new:`. The old text is once in
the file. In a source it is an expression, whole statements, an arm of a match, or the head of an `if` or a `while`.
"""
import os

from dt_commands.repository import TOP
from dt_commands.texts import read_text, write_file

FOLDER = f"{TOP}/tools/changes"
PARTS = ["Harts", "Traps", "Memory", "Bound and quantum", "Files", "Calls", "Phases and turns", "Texts"]
# The crates whose tests are rows.
ROWS = ["test_conformance"]
# The programs that print a line a row, each with the words that it is given before the names of rows.
PROGRAMS = {"test_parts": [], "test_guest_runs": ["brief"]}


class Change:
    """One file of tools/changes."""

    def __init__(self, name):
        self.name, self.part, self.sentence, self.row, self.case, self.edits = name, "", "", "", "", []
        given = {"file": None, "old": None}
        for line in read_text(f"{FOLDER}/{name}.change").splitlines():
            key, found, text = line.partition(": ")
            if not found:
                raise SystemExit(f"{name}: no line of a change: {line}")
            if key in ("part", "sentence", "row", "case"):
                setattr(self, key, text)
            elif key in given:
                given[key] = text
            elif key == "new":
                self.edits.append((given["file"], given["old"], text))
        if self.part not in PARTS or not self.sentence or not self.row or not self.edits:
            raise SystemExit(f"{name}: a part, a sentence, a row or an edit lacks")

    def program_row(self):
        """Returns the program that has the row, and the row's name, or two empty texts if it is a test."""
        module, _, row = self.row.partition("::")
        return (module, row) if module in PROGRAMS else ("", "")

    def test(self):
        """Returns the source file of the row's test, and the test's name."""
        module, test = self.row.rsplit("::", 1)
        files = [f"crates/{crate}/src/{module.replace('::', '/')}.rt" for crate in ROWS]
        return next((it for it in files if os.path.exists(f"{TOP}/{it}")), files[-1]), test

    def apply(self, folder):
        """Makes the change in a copy of the repository."""
        for file, old, new in self.edits:
            text = read_text(f"{folder}/{file}").replace(old, new)
            write_file(f"{folder}/{file}", text)


def names():
    """Returns the names of all changes, in the order of tools/changes/order, which must name each of them once."""
    ordered = read_text(f"{FOLDER}/order").split()
    files = [it[: -len(".change")] for it in os.listdir(FOLDER) if it.endswith(".change")]
    wrong = set(files) ^ set(ordered) | {it for it in ordered if ordered.count(it) > 1}
    if wrong:
        raise SystemExit(f"tools/changes/order must name each change once: {', '.join(sorted(wrong))}")
    return ordered


def listed(chosen=()):
    """Returns the changes of these names, or all, each with edits that can be made."""
    unknown = [it for it in chosen if it not in names()]
    if unknown:
        raise SystemExit(f"no such change: {unknown[0]}")
    found = [Change(it) for it in chosen or names()]
    for change in found:
        for file, old, _ in change.edits:
            count = read_text(f"{TOP}/{file}").count(old)
            if count != 1:
                raise SystemExit(f"{change.name}: the old text is {count} times in {file}: {old}")
    return found
