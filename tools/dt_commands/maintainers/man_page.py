"""The manual page man/dthreads.1, made of docs/CLI.md.

A heading becomes a section, a table a list whose tags are its first cells, and a block of code a display. The synopsis has the first code
of each section that begins with a command line.
"""
import re
import textwrap

from dt_commands.repository import TOP
from dt_commands.texts import read_text

# What it is made of, the page, and what is before and behind the sections.
SOURCE, FILE, FORM = "docs/CLI.md", "man/dthreads.1", "tools/pages/dthreads.1"
# How wide a line is, and how it is broken: between words alone.
WIDTH, WHOLE = 78, {"break_long_words": False, "break_on_hyphens": False}
# The column of a table whose cells need no name.
PLAIN = "meaning"
# Where the program's version is, and the day of that version.
VERSION, DATE = "crates/command_requests/src/commands.rt", "2026-11-26"

def read(page):
    return read_text(f"{TOP}/{page}")


def escaped(text):
    """Returns a text as troff shows it, each character for itself."""
    return guarded(text.replace("\\", r"\e").replace("-", r"\-"))


def guarded(line):
    """Returns a line that is no request, whatever it begins with."""
    return r"\&" + line if line[:1] in (".", "'") else line


def shown(text):
    """Returns a line of Markdown: code and what is strong in bold, links as their texts."""
    text = re.sub(r"\[([^\]]*)\]\([^)]*\)", r"\1", text)
    parts = re.split(r"(`[^`]*`|\*\*[^*]*\*\*)", text)
    return guarded("".join(rf"\fB{escaped(it.strip('`*'))}\fR" if it[:1] == "`" or it[:2] == "**" else escaped(it) for it in parts))


def sentences(text):
    """Returns the lines of a paragraph: each sentence begins one, and none is wider than WIDTH."""
    lines = (textwrap.wrap(shown(it), WIDTH, **WHOLE) for it in re.split(r"(?<=\.) (?=[A-Z`])", text))
    return [guarded(it) for of_sentence in lines for it in of_sentence]


def cells(row):
    return [it.strip() for it in row.strip().strip("|").split(" | ")]


def of_table(lines):
    """Yields the lines of a table: each row's first cell is a tag, the others follow with their columns' names."""
    columns = [it.lower() for it in cells(lines[0])]
    for row in map(cells, lines[2:]):
        told = sorted(zip(columns[1:], row[1:]), key=lambda it: it[0] != PLAIN)
        texts = [cell if name == PLAIN else f"{name}: {cell}" for name, cell in told if cell != "none"]
        yield from (".TP", shown(row[0]), *sentences("; ".join(texts) + "."))


def of_block(lines):
    """Yields the lines of a block of code."""
    yield from (".PP", ".nf", ".RS 4", *map(escaped, lines), ".RE", ".fi")


def blocks_of(page):
    """Yields the blocks of a page: of each its kind and its lines."""
    kinds = {"#": "heading", "|": "table", "-": "item", "`": "text"}
    lines = page.split("\n")
    while lines:
        line = lines.pop(0)
        if line.startswith("```"):
            end = next(at for at, it in enumerate(lines) if it.startswith("```"))
            yield "code", lines[:end]
            del lines[: end + 1]
        elif line.startswith("|"):
            end = next((at for at, it in enumerate(lines) if not it.startswith("|")), len(lines))
            yield "table", [line, *lines[:end]]
            del lines[:end]
        elif line.strip():
            yield kinds.get(line[0], "text"), [line]


def body_of(page):
    """Yields the lines of the manual page for the sections of the page."""
    before = ""
    for kind, lines in blocks_of(page):
        if kind == "heading":
            yield f".SH {escaped(lines[0].lstrip('# ').upper())}"
        elif kind == "table":
            yield from of_table(lines)
        elif kind == "code":
            yield from of_block(lines)
        elif kind == "item":
            yield from (r".IP \(bu 2", *sentences(lines[0][2:]))
        else:
            yield from (*([] if before == "heading" else [".PP"]), *sentences(lines[0]))
        before = kind


def synopsis(page):
    """Returns the lines of the synopsis: the command lines with which sections of the page begin."""
    found = re.findall(r"^## .*\n\n`(dthreads [^`]*)`", page, re.M)
    marked = (re.sub(r"([A-Z]{2,}|\bN\b)", r"\\fI\1\\fR", escaped(it)) for it in found)
    return "\n.br\n".join("\n".join(textwrap.wrap(it, WIDTH, **WHOLE)) for it in marked)


def page(text=None):
    """Returns the whole manual page, for what it is made of, or else for that as it is."""
    text = re.sub(r"^<!-- .* -->\n", "", text or read(SOURCE), flags=re.M)
    version = re.search(r'const VERSION: &str = "(.*)";', read(VERSION))[1]
    sections = text[text.index("\n## ") :]
    return read(FORM).format(version=version, date=DATE, synopsis=synopsis(text), body="\n".join(body_of(sections)))
