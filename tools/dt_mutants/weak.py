"""The file tools/weak-mutants: which mutants may be refused without a goal of the function that they change, and why.

Such a mutant takes away what a proof file names, or is refused in another function alone, so it says little of the contract that it is
for. A line is `CRATE/EDIT: WHY`; a line that begins with # says nothing. The line `CRATE/*: WHY` says that the crate's mutants are still to
be looked at: what is refused without a goal there, or stopped by a limit, is told and doesn't fail, and then the crate gets no entry.
"""
from dt_commands.repository import TOP

LIST = f"{TOP}/tools/weak-mutants"
EVERY = "*"


def lines_of(crate):
    with open(LIST, encoding="utf-8") as it:
        lines = [line.partition(":") for line in it if line.strip() and not line.startswith("#")]
    return {head.partition("/")[2].strip(): why.strip() for head, _, why in lines if head.partition("/")[0].strip() == crate}


def listed(crate):
    """Returns the edits of a crate that the list has, each with why."""
    return {edit: why for edit, why in lines_of(crate).items() if edit != EVERY}


def is_waiting(crate):
    """Returns whether a crate's mutants are still to be looked at."""
    return EVERY in lines_of(crate)
