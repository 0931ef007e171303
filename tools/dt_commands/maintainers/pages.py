"""The generated parts of the pages.

Generated are docs/CONFORMANCE.md as a whole, from tools/changes and tools/pages; docs/CRATES.md as a whole, from crates.txt and the first sentence of
each crate root; the limits in docs/GUEST.md, from the definitions; the list of the definitions that the headline
needs in docs/LAW.md, from the contracts of run, run_into and run_recorded; how many public functions have no `ensures` in
docs/PROVED.md; the transcripts in docs/DEBUGGING.md, from the
sessions of guest/tests/gdb; the files that docs/EDITORS.md shows; the tables of options in docs/CLI.md and the completions, from the table in the sources; man/dthreads.1,
from docs/CLI.md and tools/pages; and the manual pages and completions of the kit's commands, from what each prints for --help. Besides, each line of a block marked `antt` must be in the sources, so that no page quotes what isn't there, each link must lead to a file
and a heading, the command lines in docs/CLI.md must have the options of their commands, the picture of the layers in docs/ARCHITECTURE.md must show what crates.txt has, what README.md says of speed must be in
docs/BENCH.md, docs/PROVED.md must name the toolchain of the release, and the pages that are read as a whole have a size that they
don't exceed.
"""
import os
import re

from . import completions, conformance_page, crate_pages, debugging_page, definitions, layer_picture, man_page, options, page_links
from . import tool_pages, uncontracted
from .repository import TOP
from .sources import below
from .texts import read_text, write_file


# The pages that are read as a whole, and how many bytes each may have.
LIMITS = {"README.md": 9_500, "docs/C.md": 7_168, "docs/CLEAN-RUNS.md": 4_096, "docs/DEBUGGING.md": 8_192, "docs/TIMELINE.md": 5_120,
          "docs/RUST.md": 6_144, "docs/EXPLORING.md": 6_144, "docs/EDITORS.md": 4_096}


def read(page):
    return read_text(f"{TOP}/{page}")


def with_part(page, name, text, whole=None):
    """Returns a page, or its text as it is so far, with the part between the two markers of this name replaced."""
    whole = whole or read(page)
    start, end = f"<!-- generated: {name} -->\n", f"<!-- end of generated: {name} -->"
    if whole.count(start) != 1 or whole.count(end) != 1:
        raise SystemExit(f"{page}: the markers of the part {name} must be there once each")
    head, rest = whole.split(start)
    return head + start + text + end + rest.split(end)[1]


def command_line_page():
    """Returns docs/CLI.md with the tables of the commands that have options."""
    text = read(man_page.SOURCE)
    for command in options.commands():
        if any(it.is_option for it in command.parameters):
            text = with_part(man_page.SOURCE, f"options of {command.name}", options.table_of(command), text)
    return text


def pages():
    """Returns each page that has generated parts, with what must be in it."""
    command_line = command_line_page()
    return {
        **completions.files(),
        **tool_pages.files(),
        man_page.SOURCE: command_line,
        "docs/CONFORMANCE.md": conformance_page.page(),
        "docs/CRATES.md": crate_pages.page(),
        debugging_page.PAGE: debugging_page.page(),
        debugging_page.EDITORS: debugging_page.editors_page(),
        "docs/GUEST.md": with_part("docs/GUEST.md", "limits", crate_pages.limits()),
        "docs/LAW.md": with_part("docs/LAW.md", "definitions", definitions.listed()),
        "docs/PROVED.md": with_part("docs/PROVED.md", "functions without ensures", uncontracted.listed()),
        man_page.FILE: man_page.page(command_line),
    }


def quoted():
    """Returns the lines of blocks marked `antt`, each with its page."""
    blocks = ((page, it) for page in ("README.md", "docs/LAW.md") for it in re.findall(r"^```antt\n(.*?)^```$", read(page), re.M | re.S))
    return [(page, line) for page, block in blocks for line in block.split("\n") if line.strip()]


def misquoted():
    """Returns the lines of blocks marked `antt` that are in no definition and no contract, each with its page."""
    sources = set()
    for file in below(f"{TOP}/crates", (".antt", ".rt")):
        if "/proofs/" not in file:
            sources |= {it.strip() for it in read_text(file).split("\n")}
    return [f"{page}: {line}" for page, line in quoted() if line.strip() not in sources]


def too_long(limits, top=TOP):
    """Returns the pages that have more bytes than these limits say, each with its size and its limit."""
    sizes = {page: os.path.getsize(f"{top}/{page}") for page in limits if os.path.exists(f"{top}/{page}")}
    over = {page: size for page, size in sizes.items() if size > limits[page]}
    return [f"{page}: it has {size:,} bytes, and its limit is {limits[page]:,}: {size - limits[page]:,} too many" for page, size in over.items()]


def unmeasured(readme, bench):
    """Returns the ranges of numbers in the section on speed of one page that the page of measurements doesn't have."""
    section = re.search(r"^## Speed\n(.*?)(?=^## |\Z)", readme, re.M | re.S)
    ranges = re.findall(r"\d+(?:\.\d+)? to \d+(?:\.\d+)?", section[1] if section else "")
    return [f"README.md: docs/BENCH.md has no {it}" for it in ranges if not re.search(rf"\b{re.escape(it)}\b", bench)]


def of_another_toolchain(proved, record):
    """Returns what of the toolchain in the release's record a page doesn't name: the kit and its logic."""
    kit, _, logic = record.partition("\n")[0].partition("rt version: ")[2].partition(" logic ")
    return [f"docs/PROVED.md: it doesn't name {it}, as release/sources.sha256 does" for it in (kit, logic) if it not in proved]


def differing():
    """Returns the pages whose generated parts differ from what they must be, with what they must be."""
    return {page: text for page, text in pages().items() if not os.path.exists(f"{TOP}/{page}") or read(page) != text}


def told_wrong():
    """Prints each wrong quotation, each broken link, each page that is too long, what the picture of the layers shows wrongly, each number
    that no measurement has, each command line without its options and another toolchain than the release's, and returns how many there
    are."""
    wrong = [f"{it}: no source has this line" for it in misquoted()] + page_links.broken() + too_long(LIMITS)
    wrong += layer_picture.found() + unmeasured(read("README.md"), read("docs/BENCH.md"))
    wrong += options.untold(read(man_page.SOURCE), options.commands())
    wrong += of_another_toolchain(read("docs/PROVED.md"), read("release/sources.sha256"))
    for line in wrong:
        print(line)
    return len(wrong)


def check(options):
    """Compares the generated parts of the pages, their quotations, links and sizes."""
    differ, wrong = differing(), told_wrong()
    for page in differ:
        print(f"{page}: differs from what tools/dt write pages makes")
    counts = len(pages()), len(quoted()), len(page_links.links())
    print("{} generated pages, {} quoted lines, {} links: {} are not as they must be".format(*counts, len(differ) + wrong))
    return 1 if differ or wrong or not all(counts) else 0


def write(options):
    """Writes the generated parts of the pages."""
    differ = differing()
    for page, text in differ.items():
        write_file(f"{TOP}/{page}", text)
        print(f"{page}: written")
    wrong = told_wrong()
    if not differ and not wrong:
        print("the generated pages are as they must be")
    return 1 if wrong else 0
