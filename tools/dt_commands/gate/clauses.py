"""The clauses of contracts: how many there are, how many are repeated in their file, and which lines are too long.

A clause is repeated if another function of its file has one of the same kind with the same text; clauses that several functions share
are one named record in specs/. Prints each line of a clause of more than 140 columns, and ends with 1 if there is any.
"""
import collections
import re

from .repository import TOP
from .sources import files_of
from .texts import read_text

# A clause of a contract, from a line's start to the brace that ends it at a line's end.
CLAUSE = re.compile(r"(?m)^ *(requires|ensures)\*? ?(\w*) ?\{(.*?)\}$", re.S)
COLUMNS = 140


def clauses_of(text):
    """Returns the clauses of a source: of each the kind and the text with single spaces, and its lines with the number of the first."""
    return [((it[1], " ".join(it[3].split())), text.count("\n", 0, it.start()) + 1, it[0].split("\n")) for it in CLAUSE.finditer(text)]


def repeated(clauses):
    """Returns how many of these clauses are repetitions."""
    counts = collections.Counter(it[0] for it in clauses)
    return sum(counts.values()) - len(counts)


def long_lines(clauses):
    """Returns the numbers of their lines that are too long."""
    return [first + at for _, first, lines in clauses for at, line in enumerate(lines) if len(line) > COLUMNS]


def check(options):
    """Checks that no line of a clause is too long, and counts the clauses that are repeated in their file."""
    every = again = found = 0
    for file in files_of(TOP):
        clauses = clauses_of(read_text(file))
        every, again = every + len(clauses), again + repeated(clauses)
        for number in long_lines(clauses):
            print(f"{file[len(TOP) + 1:]}:{number}: a clause of more than {COLUMNS} columns")
            found += 1
    print(f"{every:,} clauses, {again} repeated in their file, {found} lines of more than {COLUMNS} columns")
    return 1 if found or not every else 0
