"""Makes a Debian package of the program, the kit, the samples and the pages, by dpkg-deb.

The package has below /usr what `tools/dt install` installs, with its completion for zsh where Debian's zsh looks. It depends on the compiler of
guest programs, whose packages take 1.2 GB, three quarters of it for C libraries of other machines. Nothing runs when it is installed.
"""
import gzip
import hashlib
import os
import re
import shutil
import subprocess
import tempfile

from dt_commands import install
from dt_commands.repository import TOP
from dt_commands.texts import contents, write_file

# What the package needs: glibc from the version on that the program was linked with, and what dthreads-cc calls.
DEPENDS = "libc6 (>= 2.34), python3:any (>= 3.8), gcc-riscv64-unknown-elf (>= 12), binutils-riscv64-unknown-elf, picolibc-riscv64-unknown-elf (>= 1.8)"
CONTROL = """Package: dthreads
Version: {version}
Architecture: amd64
Maintainer: Kiwisettee maintainers <maintainers@users.noreply.kiwisettee.example>
Section: devel
Priority: optional
Installed-Size: {kibibytes}
Depends: {depends}
Recommends: gdb-multiarch
Suggests: bash-completion, cmake, meson
Description: deterministic run time for multithreaded RV32IM programs
 dthreads runs programs with many threads so that every run gives the same
 result, whatever the host schedules. It lists races, explores schedules by
 number, and debugs forwards and backwards in gdb.
 .
 dthreads-cc compiles C for it. The cross compiler and picolibc, on which
 this package depends, take 1.2 GB.
"""
COPYRIGHT = """Format: https://www.debian.org/doc/packaging-manuals/copyright-format/1.0/

Files: *
Copyright: Kiwisettee maintainers
License: Apache-2.0 or MIT
 The texts are LICENSE-APACHE and LICENSE-MIT in this folder.
"""
# Where Debian's zsh looks for completions of packages.
OF_ZSH = "share/zsh/vendor-completions"


def arguments(parser):
    parser.add_argument("folder", nargs="?", default=".", metavar="FOLDER", help="where the package goes (default: the current folder)")


def version_of(program):
    """Returns the version of the program."""
    ran = subprocess.run([program, "--version"], stdout=subprocess.PIPE, stdin=subprocess.DEVNULL, check=True, text=True)
    return re.fullmatch(r"dthreads (\S+)\n", ran.stdout)[1]


def files_below(folder):
    """Yields the regular files below a folder."""
    for at, _, names in sorted(os.walk(folder)):
        yield from (f"{at}/{it}" for it in sorted(names) if not os.path.islink(f"{at}/{it}"))


def take_debians_form(usr):
    """Gives what was installed the form of a Debian package: places of files, packed manual pages, modes and a copyright."""
    os.rename(f"{usr}/{install.OF_ZSH}", f"{usr}/{OF_ZSH}")
    write_file(f"{usr}/{install.DOC}/copyright", COPYRIGHT)
    for page in list(files_below(f"{usr}/{install.MAN}")):
        write_file(f"{page}.gz", gzip.compress(contents(page), 9, mtime=0))
        os.remove(page)
    for file in files_below(usr):
        os.chmod(file, 0o755 if os.access(file, os.X_OK) else 0o644)


def write_control(root):
    """Writes what dpkg reads of the package: its fields, and the sums of its files."""
    files = list(files_below(f"{root}/usr"))
    size = sum(os.path.getsize(it) for it in files)
    fields = {"version": version_of(f"{root}/usr/bin/dthreads"), "kibibytes": -(-size // 1024), "depends": DEPENDS}
    write_file(f"{root}/DEBIAN/control", CONTROL.format(**fields))
    sums = (f"{hashlib.md5(contents(it)).hexdigest()}  {os.path.relpath(it, root)}\n" for it in files)
    write_file(f"{root}/DEBIAN/md5sums", "".join(sums))
    return f"dthreads_{fields['version']}_amd64.deb"


def run(options):
    if not shutil.which("dpkg-deb"):
        install.say("the command dpkg-deb is missing: it makes the package")
        return 1
    os.umask(0o022)
    with tempfile.TemporaryDirectory() as room:
        root = f"{room}/root"
        if not install.is_installed(f"{root}/usr"):
            return 1
        take_debians_form(f"{root}/usr")
        package = os.path.join(options.folder, write_control(root))
        words = ["dpkg-deb", "--root-owner-group", "-Zxz", "--build", root, package]
        ran = subprocess.run(words, stdout=subprocess.PIPE, stderr=subprocess.STDOUT, text=True)
    if ran.returncode:
        install.say(ran.stdout.strip())
        return 1
    print(f"{package}: {os.path.getsize(package):,} bytes; apt-get install {os.path.abspath(package)}")
    return 0
