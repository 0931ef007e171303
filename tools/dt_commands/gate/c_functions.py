"""The functions of C11 and POSIX that a guest program has: the table in docs/C-FUNCTIONS.md.

guest/reference lists the functions of each standard. A function is there if the library or the C library has it, which nm tells, or
if its header defines a macro of its name. guest/refused says why others aren't.
"""
import os
import re
import subprocess
import tempfile

from dt_commands.progress import Progress
from dt_commands.repository import TOP
from dt_commands.texts import read_text, rows_of, write_file

KIT = f"{TOP}/guest"
PAGE = f"{TOP}/docs/C-FUNCTIONS.md"
PICOLIBC = "/usr/lib/picolibc/riscv64-unknown-elf/lib/rv32im/ilp32"
# The table of the page, and the marks round it.
TABLE = re.compile(r"(<!-- The table of functions: [^>]*-->)(.*)(?=<!-- The end of the table -->)", re.S)
STANDARDS = [("c11", "C11"), ("posix", "POSIX.1-2008, beyond C11")]


def standard(name):
    """Returns the headers of a standard, each with its functions, in the file's order."""
    return [(row[0], row[1:]) for row in rows_of(f"{KIT}/reference/{name}")]


def reasons():
    """Returns why a function isn't there, by its name."""
    found = {}
    with open(f"{KIT}/refused", encoding="utf-8") as lines:
        for line in lines:
            names, colon, reason = line.strip().partition(": ")
            if colon and not line.startswith("#"):
                found.update({name: reason for name in names.split()})
    return found


def symbols():
    """Returns the names that the library and the C library define."""
    folder = subprocess.run([f"{KIT}/dthreads-cc", "--library"], check=True, stdout=subprocess.PIPE, text=True).stdout.strip()
    libraries = [f"{folder}/libdthreads.a", f"{PICOLIBC}/libc.a"]
    listing = subprocess.run(["riscv64-unknown-elf-nm", "--defined-only", *libraries], stdout=subprocess.PIPE,
                             stderr=subprocess.DEVNULL, text=True, check=True).stdout
    return {words[2] for words in map(str.split, listing.splitlines()) if len(words) == 3 and words[1] in "TWDBRV"}


def macros(header):
    """Returns the macros of a header, or none if it isn't there."""
    done = subprocess.run([f"{KIT}/dthreads-cc", "-D_GNU_SOURCE", "-E", "-dM", "-include", header, "-x", "c", "/dev/null"],
                          stdout=subprocess.PIPE, stderr=subprocess.DEVNULL, text=True)
    lines = done.stdout.splitlines() if done.returncode == 0 else []
    return {line.split()[1].partition("(")[0] for line in lines if line.startswith("#define ")}


def missing_by_reason(names, why):
    """Returns text on functions that aren't there, those with one reason together."""
    groups = {}
    for name in names:
        groups.setdefault(why.get(name, "not made"), []).append(name)
    return "; ".join(", ".join(f"`{name}`" for name in group) + f": {reason}" for reason, group in groups.items())


def rows(name, have, why):
    """Returns the table's rows for one standard, and the functions that are there as symbols."""
    lines, present = [], []
    kept = set(why) & have
    if kept:
        raise SystemExit(f"guest/refused names functions that are there: {' '.join(sorted(kept))}")
    for header, functions in standard(name):
        absent = [function for function in functions if function not in have]
        if absent:
            of_header = macros(header)
            absent = [function for function in absent if function not in of_header]
        present += [function for function in functions if function in have]
        if not absent:
            text = "all"
        elif len(absent) == len(functions):
            found = {why.get(function, "not made") for function in absent}
            text = "none: " + "; ".join(sorted(found))
        else:
            text = "all but " + missing_by_reason(absent, why)
        lines.append(f"| `{header}` | {len(functions)} | {text} |")
    return lines, present


def table():
    """Returns the text of the table and the functions that are there as symbols."""
    have, why = symbols(), reasons()
    text, present = [], []
    for name, title in STANDARDS:
        lines, here = rows(name, have, why)
        text += [f"| {title} | Functions | There are |", "|---|---|---|", *lines, ""]
        present += here
    return "\n".join(text), present


def links(names):
    """Whether a program links that names all these functions."""
    with tempfile.TemporaryDirectory() as room:
        source = f"{room}/all.c"
        words = "".join(f".word {name}\\n" for name in names)
        write_file(source, f'int main(void) {{ return 0; }}\n__asm__(".section .rodata.all, \\"aR\\"\\n{words}");\n')
        done = subprocess.run([f"{KIT}/dthreads-cc", "-o", f"{room}/all.elf", source, "-lm", "-Wl,--no-gc-sections"],
                              stderr=subprocess.PIPE, text=True)
    if done.returncode:
        print(done.stderr)
    return done.returncode == 0


def compared():
    """Returns the page, the place of its table, the text that the table must be, and the functions that are there as symbols."""
    with Progress("tables", 1):
        text, present = table()
    page = read_text(PAGE)
    found = TABLE.search(page)
    if not found:
        raise SystemExit(f"{PAGE}: the marks of the table are missing")
    return page, found, f"\n\n{text}\n", present


def check(options):
    """Compares the table of functions with the library, and links a program that names every function of the table."""
    _, found, fresh, present = compared()
    if found[2] != fresh:
        print(f"{os.path.relpath(PAGE, TOP)}: the table of functions isn't that of the library: tools/dt write c-functions")
        return 1
    if not links(present):
        return 1
    print(f"{len(present)} functions link, and the table is true")
    return 0


def write(options):
    """Writes the table of functions into docs/C-FUNCTIONS.md."""
    page, found, fresh, _ = compared()
    write_file(PAGE, page[: found.start(2)] + fresh + page[found.end(2) :])
    return 0
