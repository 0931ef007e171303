"""What the program is built from, and the records that say so of a built program.

A record is a line with the toolchain's `rt version`, and below it what tools/list-sources prints. It is a file that
`sha256sum --check` reads, at the top of the checkout.
"""
import os
import subprocess

from dt_commands.repository import TOP
from dt_commands.texts import read_text, write_file

VERSION = "# rt version: "
# The record of the program that was built here.
OF_BUILD = "crates/command/out/dthreads.sources"


def listed(top=TOP):
    """Returns the list of the sources as they are."""
    ran = subprocess.run([f"{TOP}/tools/list-sources", top], stdout=subprocess.PIPE, check=True, universal_newlines=True)
    return ran.stdout


def read(file):
    """Returns the toolchain and the list of a record, or None if there is no such file."""
    if not os.path.isfile(file):
        return None
    lines = read_text(file).splitlines(True)
    version = [it[len(VERSION) :].strip() for it in lines if it.startswith(VERSION)]
    return (version + [""])[0], "".join(it for it in lines if not it.startswith(VERSION))


def write(file, version, text):
    """Writes a record."""
    write_file(file, f"{VERSION}{version}\n{text}")


def named(text):
    """Returns the entries of a list by their names: a file by its path, a line of crates.txt by its crate."""
    found = {}
    for line in text.splitlines():
        if line.startswith("# "):
            found[line.partition(":")[2].partition(":")[0].strip() + " in crates.txt"] = line
        else:
            found[line.partition("  ")[2]] = line
    return found


def differences(one, other):
    """Returns the names of the entries in which two lists differ."""
    one, other = named(one), named(other)
    return sorted(it for it in {**one, **other} if one.get(it) != other.get(it))
