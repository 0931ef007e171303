"""The page of the crates and the list of limits, made of crates.txt, the crate roots and the definitions."""
import os
import re

from .repository import TOP
from .texts import read_text

# The list of limits: what is limited, and the crate, the file and the name of the definition with the number.
LIMITS = [
    ("host threads", "abi", "Limits", "workers"),
    ("bound and quantum, in instructions", "abi", "Limits", "instructions"),
    ("bytes of the input", "abi", "Limits", "input"),
    ("bytes of the output", "abi", "Limits", "output"),
    ("heap pages ever given", "guest_memory", "Layout", "heap_pages"),
    ("threads ever created", "abi", "Limits", "threads"),
    ("mutexes, condition variables, barriers, each", "abi", "Limits", "objects"),
]


def sections():
    """Returns the sections of crates.txt, in its order: a heading each, with the names of its crates."""
    found = [("", [])]
    for line in read_text(f"{TOP}/crates.txt").split("\n"):
        if line.startswith("#"):
            found.append((line.lstrip("# ").strip(), []))
        elif ":" in line:
            found[-1][1].append(line.split(":")[0].strip())
    return [it for it in found if it[1]]


def first_sentence(crate):
    """Returns the first sentence of a crate root's `//!` lines."""
    for root in ("lib.rt", "main.rt"):
        file = f"{TOP}/crates/{crate}/src/{root}"
        if os.path.exists(file):
            lines = re.match(r"(?://!.*\n)*", read_text(file))[0]
            paragraph = re.sub(r"^//! ?", "", lines, flags=re.M).split("\n\n")[0]
            words = " ".join(paragraph.split())
            if not words:
                raise SystemExit(f"{file}: no //! line says what the crate is")
            return re.sub(r"\[(`[^`]*`)\]", r"\1", re.split(r"(?<=[.:;])\s+(?=[A-Z])", words)[0].rstrip(":"))
    raise SystemExit(f"{crate}: no crate root")


def table():
    """Returns the table of crates, a table for each section of crates.txt."""
    text = ""
    for heading, names in sections():
        text += f"**{heading}**\n\n| Crate | What it is |\n|---|---|\n"
        text += "".join(f"| `{it}` | {first_sentence(it)} |\n" for it in names) + "\n"
    return text


def page():
    """Returns the page of the crates."""
    head = "For developers: what each crate is, in the order of `crates.txt`: a crate depends on earlier ones alone."
    return f"# Crates\n\n{head} `tools/dt write pages` makes this page.\n\n{table()}".rstrip("\n") + "\n"


def value(crate, file, name):
    """Returns the number of a definition as a page writes it."""
    found = re.search(rf"^{name} = (.*)$", read_text(f"{TOP}/crates/{crate}/specs/{file}.antt"), re.M)
    if not found:
        raise SystemExit(f"{crate}/specs/{file}.antt: no number {name}")
    number = found[1].replace("_", "")
    return number.replace(" ", "") if "^" in number else f"{int(number, 0):,}"


def limits():
    """Returns the list of limits."""
    return "".join(f"- {what}: {value(*where)}\n" for what, *where in LIMITS)
