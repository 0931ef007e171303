"""Tests of the Debian package in a new Debian system, which debootstrap makes: it installs, and works for a user without rights.

It needs root, the package debootstrap, the network, and 2 GB of room below the folder; the system is removed at the end unless --keep is given.
With a system that an earlier call kept there, the package is installed anew.
"""
import glob
import os
import shutil
import subprocess
import tempfile

from dt_commands.guest_runs import Tally
from dt_commands.repository import TOP
from dt_commands.texts import first_difference

SUITE, MIRROR = "bookworm", "http://deb.debian.org/debian"
SHARE = "/usr/share/dthreads"
# What a user does, by a shell, and what that prints.
CASES = [
    ("dthreads --version", b"dthreads 0.1.0\n"),
    (f"dthreads run {SHARE}/samples/race.elf --trace - | cmp - {SHARE}/samples/race.trace && echo same", b"same\n"),
    (f"dthreads-cc -O2 -g {SHARE}/samples/c/race.c -o race.elf && dthreads run race.elf", b"counter 1000 of 2000\n"),
    ("dthreads run race.elf --check - | dthreads-lines race.elf | grep -c 'at=.*race.c:[0-9]* .*object=counter'", b"2\n"),
    (f"dthreads-exec {SHARE}/samples/c/counter.elf --workers 4", b"counter 2000 of 2000\n"),
    (f"dthreads run {SHARE}/samples/race.elf --timeline t >/dev/null; dthreads-picture t | grep -q '<svg' && echo drawn", b"drawn\n"),
    (f"cp {SHARE}/guest/cmake-toolchain.cmake {SHARE}/guest/meson-cross.ini . && ls *.cmake *.ini", b"cmake-toolchain.cmake\nmeson-cross.ini\n"),
    ("zcat /usr/share/man/man1/dthreads.1.gz | grep -c '^.TH DTHREADS'", b"1\n"),
    ("zcat /usr/share/man/man1/dthreads-{cc,exec,gdb,lines,cargo}.1.gz | grep -c '^.TH DTHREADS'", b"5\n"),
    (". /usr/share/bash-completion/completions/dthreads && complete -p dthreads | cut -d' ' -f1", b"complete\n"),
    (". /usr/share/bash-completion/completions/dthreads-gdb && complete -p dthreads-gdb | cut -d' ' -f1", b"complete\n"),
]


def arguments(parser):
    parser.add_argument("--folder", metavar="FOLDER", help="where the system is made (default: a temporary folder)")
    parser.add_argument("--keep", action="store_true", help="leave the system there at the end")


def call(*words, **how):
    """Calls a command that must not fail."""
    ran = subprocess.run(words, stdin=subprocess.DEVNULL, stdout=subprocess.PIPE, stderr=subprocess.STDOUT, text=True, check=False, **how)
    if ran.returncode:
        raise SystemExit(f"{' '.join(words)}:\n{ran.stdout[-2000:]}")


def in_system(system, *words):
    """Calls a command as root of the system."""
    call("chroot", system, "/usr/bin/env", "-i", "PATH=/usr/sbin:/usr/bin:/sbin:/bin", "DEBIAN_FRONTEND=noninteractive", *words)


def install(system):
    """Makes the system, if it isn't there, and installs the package."""
    if not os.path.exists(f"{system}/usr/bin/apt-get"):
        call("debootstrap", "--variant=minbase", SUITE, system, MIRROR)
    in_system(system, "apt-get", "update", "-q")
    for it in glob.glob(f"{system}/tmp/dthreads_*.deb"):
        os.remove(it)
    call(f"{TOP}/tools/dt", "package", f"{system}/tmp")
    package = os.path.basename(glob.glob(f"{system}/tmp/dthreads_*.deb")[0])
    words = ["apt-get", "install", "-y", "-q", "--reinstall", "--no-install-recommends", f"/tmp/{package}"]
    in_system(system, *words)
    in_system(system, "apt-get", "clean")


def used(tally, system):
    """Does what a user does, in a folder of the user's own."""
    room = tempfile.mkdtemp(dir=f"{system}/tmp")
    os.chmod(room, 0o777)
    folder = f"/tmp/{os.path.basename(room)}"
    for text, wanted in CASES:
        tally.tried += 1
        words = ["chroot", "--userspec=65534:65534", system, "/usr/bin/env", "-i", "PATH=/usr/bin:/bin", "bash", "-c", f"cd {folder} && {text}"]
        ran = subprocess.run(words, stdin=subprocess.DEVNULL, stdout=subprocess.PIPE, stderr=subprocess.STDOUT, check=False)
        if ran.stdout != wanted:
            tally.fail(f"{text}: {first_difference(ran.stdout, wanted)}")


def remove(tally, system):
    """Removes the package, whose files must be as dpkg knows them, and of which nothing may stay."""
    tally.tried += 1
    changed = subprocess.run(["chroot", system, "dpkg", "--verify", "dthreads"], stdout=subprocess.PIPE, text=True, check=False).stdout
    in_system(system, "dpkg", "--purge", "dthreads")
    left = glob.glob(f"{system}/usr/bin/dthreads*") + glob.glob(f"{system}/usr/share/*/dthreads") + glob.glob(f"{system}{SHARE}")
    if changed or left:
        tally.fail(f"changed files: {changed}; left: {left}")


def test(options):
    """Tests the Debian package in a new system."""
    tally, system = Tally(), options.folder or tempfile.mkdtemp()
    try:
        install(system)
        used(tally, system)
        remove(tally, system)
    finally:
        if not options.keep:
            shutil.rmtree(system)
    return tally.status("uses of the Debian package", ": each as expected")
