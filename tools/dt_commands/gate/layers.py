"""The layers of crates.txt.

A comment line `# NAME: ..` begins the section of that name. Prints each line that breaks a rule, and ends with 1 if there is any:
- the sections come in the order listed here, and each crate is in one of them;
- a crate depends only on crates of earlier lines;
- the crates of the sections data and tests carry the prefixes data_ and test_, and no others do;
- no crate of the product depends on one of data or tests;
- each crate has a folder in crates/, and each folder there a line.
"""
import os
import re

from .repository import TOP
from .texts import read_text

# The sections of the product, in the order of their layers.
PRODUCT = ["ground", "machine", "memory", "calls", "law", "hands", "schedules", "debugging", "records", "program"]
# The sections beside the product, with the prefix of their crates.
BESIDE = {"data": "data_", "tests": "test_"}
SECTIONS = [*PRODUCT, *BESIDE]


def rows_of(text):
    """Yields the crates of a crates.txt: of each its section ('' before the first one), its name and the names that it depends on."""
    section = ""
    for line in text.split("\n"):
        begun = re.match(r"# (\w+):", line)
        if begun:
            section = begun[1]
        head, colon, uses = line.partition("#")[0].partition(":")
        if colon:
            yield section, head.split()[0], uses.split()


def sections_of(text):
    return re.findall(r"(?m)^# (\w+):", text)


def prefix_of(name):
    return next((it for it in BESIDE.values() if name.startswith(it)), "")


def complaints(text, folders):
    """Returns what is wrong with the text of a crates.txt, if these are the folders of crates/."""
    rows = list(rows_of(text))
    every = {name: section for section, name, _ in rows}
    found, earlier = [], set()
    if sections_of(text) != SECTIONS:
        found.append(f"the sections are {' '.join(sections_of(text))}, not {' '.join(SECTIONS)}")
    for section, name, uses in rows:
        if prefix_of(name) != BESIDE.get(section, ""):
            found.append(f"{name}: its prefix is not that of the section {section or 'before the first'}")
        for it in uses:
            if it in every and it not in earlier:
                found.append(f"{name}: {it} is on no earlier line")
            if section in PRODUCT and every.get(it) in BESIDE:
                found.append(f"{name}: a crate of the product depends on {it}")
        earlier.add(name)
    found += [f"{it}: it has no folder in crates/" for it in every if it not in folders]
    found += [f"{it}: it has no line in crates.txt" for it in folders if it not in every]
    return found


def check(options):
    """Checks that crates.txt shows the layers: sections in their order, each crate on earlier lines alone."""
    text = read_text(f"{TOP}/crates.txt")
    found = complaints(text, sorted(os.listdir(f"{TOP}/crates")))
    for it in found:
        print(f"crates.txt: {it}")
    count = len(list(rows_of(text)))
    print(f"{count} crates in {len(sections_of(text))} sections, {len(found)} breaks of the layers")
    return 1 if found or not count else 0
