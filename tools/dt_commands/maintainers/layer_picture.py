"""The picture of the layers in docs/ARCHITECTURE.md, compared with crates.txt.

It is the first block of code of the page. A line that begins with a name begins the section of that name; the indented lines below it have
its crates, by commas. ` > ` between two of them is "depends on". `tools/dt check pages` prints each line that breaks a rule:
- the sections are those of the product, the last one first;
- each crate of a section is there, and no other;
- a crate names the one behind its ` > ` in crates.txt.
"""
import re

from dt_commands import layers
from dt_commands.repository import TOP
from dt_commands.texts import read_text

PAGE = "docs/ARCHITECTURE.md"


def drawn_on(page):
    """Returns the picture of a page: of each section the rows of crates that are joined by ` > `."""
    block = re.search(r"^```\n(.*?)^```$", page, re.M | re.S)
    found = []
    for line in block[1].splitlines() if block else []:
        if not line.startswith(" "):
            found.append((line.split()[0], []))
        elif found:
            found[-1][1].extend(it.split(" > ") for it in line.strip().split(", "))
    return found


def of_section(section, chains, rows):
    """Returns in what the rows of one section differ from the lines of crates.txt."""
    uses = {name: its for of, name, its in rows if of == section}
    named = {name for chain in chains for name in chain}
    found = [f"{it} is left out" for it in uses if it not in named]
    found += [f"{it} is not of this section" for it in sorted(named - set(uses))]
    arrows = [pair for chain in chains for pair in zip(chain, chain[1:])]
    found += [f"{one} doesn't depend on {other}" for one, other in arrows if other not in uses.get(one, [other])]
    return [f"{section}: {it}" for it in found]


def complaints(page, text):
    """Returns in what the picture of a page differs from the text of a crates.txt."""
    rows, drawn = list(layers.rows_of(text)), drawn_on(page)
    wanted = layers.PRODUCT[::-1]
    if [it[0] for it in drawn] != wanted:
        return [f"its sections are {' '.join(it[0] for it in drawn)}, not {' '.join(wanted)}"]
    return [it for section, chains in drawn for it in of_section(section, chains, rows)]


def found():
    """Returns in what the picture differs from crates.txt, each with the page."""
    wrong = complaints(read_text(f"{TOP}/{PAGE}"), read_text(f"{TOP}/crates.txt"))
    return [f"{PAGE}: the picture of the layers: {it}" for it in wrong]
