"""Installs the Debian packages that the gate needs and that are missing, or names them.

For root it installs them with apt-get, those that guest/packages lists in the versions given there. For anybody else, or if a package is
still missing, it prints their names and ends with 1.
"""
import os
import shutil
import subprocess
import sys

from dt_commands.repository import TOP
from dt_commands.texts import rows_of

# Each package, with a command or a file by which it is known to be there.
NEEDED = {
    "gcc": "cc",
    "libc6-dev": "/usr/include/stdio.h",
    "groff-base": "groff",
    "manpages-dev": "/usr/share/man/man3/pthread_create.3.gz",
    "gcc-riscv64-unknown-elf": "riscv64-unknown-elf-gcc",
    "binutils-riscv64-unknown-elf": "riscv64-unknown-elf-ld",
    "picolibc-riscv64-unknown-elf": "/usr/lib/picolibc/riscv64-unknown-elf/lib/rv32im/ilp32/libc.a",
    "gdb-multiarch": "gdb-multiarch",
}
# What apt-get is told: it asks nothing, and waits for another one that is at work.
QUIETLY = ["-y", "-q", "-o", "DPkg::Lock::Timeout=600"]


def lacking(needed=None):
    """Returns the packages that are missing."""
    return [name for name, mark in (needed or NEEDED).items() if not (os.path.exists(mark) if mark.startswith("/") else shutil.which(mark))]


def want(what, needed):
    """Ends with the packages that are missing, if any are."""
    if lacking(needed):
        raise SystemExit(f"tools/dt: {what} {' '.join(lacking(needed))}")


def versions():
    """Returns the versions of the packages that guest/packages lists."""
    return dict(rows_of(f"{TOP}/guest/packages"))


def install(names):
    """Installs packages. Returns whether apt-get did it."""
    listed = versions()
    wanted = [f"{it}={listed[it]}" if it in listed else it for it in names]
    environment = {**os.environ, "DEBIAN_FRONTEND": "noninteractive"}
    calls = (["update", *QUIETLY], ["install", "--no-install-recommends", *QUIETLY, *wanted])
    return all(subprocess.run(["apt-get", *it], stdin=subprocess.DEVNULL, env=environment).returncode == 0 for it in calls)


def see(is_root, needed=None):
    """Installs what is missing if root asks for it. Returns the status."""
    missing = lacking(needed)
    if missing and is_root and shutil.which("apt-get"):
        print(f"packages: installing {' '.join(missing)}", flush=True)
        install(missing)
        missing = lacking(needed)
    if missing:
        print(f"packages: missing are {' '.join(missing)}: apt-get install {' '.join(missing)}", file=sys.stderr)
        return 1
    print(f"{len(needed or NEEDED)} packages are there")
    return 0


def run(options):
    return see(os.geteuid() == 0)
