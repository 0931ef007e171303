"""The pages as they are installed: they speak of what is there.

The commands that are installed are called by their names, a link to the samples leads to the installed ones, and what is of a clone
alone is left out. A line below the title says where the folders are that a page speaks of.
"""
import re

# Sections, and lines of blocks of code by how they begin, that are of a clone alone.
SECTIONS = {"README.md": ["Install, build, first run"]}
LINES = ("tools/dt ", ".ci/run")
# Words of a clone, and what they are called below a prefix.
WORDS = [
    (r"\btools/dt picture\b", "dthreads-picture"),
    (r"\bguest/(dthreads-(?:cc|rustc|cargo|exec|gdb|lines|picture)\b|dthreads-c\+\+)", r"\1"),
    (r"(?<![\w/.])\.{1,2}/dthreads\b(?! --build)", "dthreads"),
]
WHERE = (
    "> Installed: the folders `samples` and `guest` are in `share/dthreads` below the prefix. `crates`, `tools`, `release`, `.ci` and "
    "`./dthreads --build` are in a clone of the project alone.\n"
)


def without_section(text, heading):
    """Returns a page without the section of this heading, which must be there."""
    found = re.subn(rf"^## {re.escape(heading)}\n.*?(?=^## |\Z)", "", text, flags=re.M | re.S)
    if found[1] != 1:
        raise SystemExit(f"no section {heading}, or several")
    return found[0]


def without_lines(block):
    """Returns a block of code without the lines that call what is not installed."""
    return "".join(it for it in block[0].splitlines(True) if not it.startswith(LINES))


def installed(page, text):
    """Returns the text of a page, named by its path from the top, as it is installed."""
    for old, new in WORDS:
        text = re.sub(old, new, text)
    for heading in SECTIONS.get(page, []):
        text = without_section(text, heading)
    text = re.sub(r"^```.*?^```$", without_lines, text, flags=re.M | re.S)
    # (from share/doc/dthreads to share/dthreads, and back)
    text = re.sub(r"\]\((\.\./)?samples/", lambda found: f"](../../{found[1] or ''}dthreads/samples/", text)
    text = text.replace("](../docs/", "](../../doc/dthreads/docs/")
    return re.sub(r"\A(# .*\n)", lambda found: f"{found[1]}\n{WHERE}", text)
