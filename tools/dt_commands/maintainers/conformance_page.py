"""The page docs/CONFORMANCE.md: each sentence with the row that pins it, of tools/changes, and the named bodies that the prover refuses."""
from dt_commands import changes, named_bodies
from dt_commands.repository import TOP
from dt_commands.texts import read_text

FORM = f"{TOP}/tools/pages/conformance.md"


def row_of(change):
    return f"`{change.row}`" + (f", `{change.case}`" if change.case else "")


def rows(part, every):
    """Returns the section of a part, with the rows of its changes."""
    lines = [f"| {it.sentence} | {row_of(it)} | `{it.name}` |\n" for it in every if it.part == part]
    return f"\n## {part}\n\n| Sentence | Row | Change |\n|---|---|---|\n" + "".join(lines)


def page():
    """Returns the whole page."""
    every = [changes.Change(it) for it in changes.names()]
    tests, programs = (" or ".join(f"`{it}`" for it in crates) for crates in (changes.ROWS, changes.PROGRAMS))
    parts = "".join(rows(it, every) for it in changes.PARTS)
    return read_text(FORM).format(count=len(every), tests=tests, programs=programs, parts=parts, named=named_bodies.table())
