"""The samples: listings, traces, reports and schedules in crates/test_guest_runs/data, and the ELF files made of them.

The ELF files are made of the listings, beside them. All are copied to samples/, and the one that the gate runs the program dthreads on
to crates/command/data.
"""
import glob
import os
import shutil
import subprocess

from dt_commands import written_guests
from dt_commands.repository import TOP
from dt_commands.texts import contents, write_file

DATA, SAMPLES = written_guests.DATA, f"{TOP}/samples"
ENDINGS = ("elf", "listing", "trace", "report", "schedule")
# The sample that the program's stored run is of.
OF_COMMAND = f"{TOP}/crates/command/data/letter.elf"


def names_in(folder):
    """Returns the names of the samples' files in a folder."""
    return sorted(os.path.basename(it) for ending in ENDINGS for it in glob.glob(f"{folder}/*.{ending}"))


def copies():
    """Returns the copies, each with its source."""
    return {**{f"{SAMPLES}/{it}": f"{DATA}/{it}" for it in names_in(DATA)}, OF_COMMAND: f"{DATA}/letter.elf"}


def differing():
    """Returns the ELF files that aren't as their listings say, and the copies that differ from their sources, or lack one."""
    files = [file for file, data in made().items() if contents(file) != data]
    files += [it for it in glob.glob(f"{DATA}/*.elf") if it not in made()]
    lacking = [f"{SAMPLES}/{it}" for it in names_in(SAMPLES) if it not in names_in(DATA)]
    return files + [copy for copy, source in copies().items() if contents(copy) != contents(source)] + lacking


def check(options):
    """Compares the ELF files of the samples with their listings, and the copies of the samples with their sources."""
    found = differing()
    for it in found:
        print(f"not as in {os.path.relpath(DATA, TOP)}: {os.path.relpath(it, TOP)}")
    count = min(len(made()), len(copies()) - 1)
    print(f"{len(made())} samples and {len(copies())} copies, {len(found)} are not as they must be")
    return 1 if found or not count else 0


def made():
    """Returns the ELF files of the samples, by their names, as their listings say."""
    return {f"{DATA}/{it}.elf": written_guests.elf(it) for it in written_guests.names() if written_guests.is_sample(it)}


def write(options):
    """Makes the ELF files of the samples, and copies all to samples/."""
    for file, data in made().items():
        write_file(file, data)
    for copy, source in copies().items():
        shutil.copyfile(source, copy)
    subprocess.run(["git", "-C", TOP, "status", "--short", "samples", DATA, os.path.dirname(OF_COMMAND)])
    return 0
