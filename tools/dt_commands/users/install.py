"""Installs the program, the kit for programs in C, the samples and the pages below a prefix.

Below PREFIX, bin/ has dthreads, and dthreads-cc, dthreads-c++, dthreads-rustc, dthreads-cargo, dthreads-exec, dthreads-gdb,
dthreads-lines and dthreads-picture as links to the kit; share/dthreads/ has the kit (guest/), the samples and what draws pictures
(tools/), share/doc/dthreads the pages, as they speak of what is installed, share/man/man1 the manual pages, and the completions are where
bash and zsh look for them. All of it works without the checkout, from any folder, and may be moved as a whole. What an earlier call left below share/dthreads and share/doc/dthreads is
replaced.

The program is the one built here from the sources as they are, or the release if it is theirs; else build it first. If the compiler of
guest programs is there, the C library is built, since a user may not write below PREFIX; what the checkout has built of it serves if no
source of it changed since.
"""
import glob
import os
import shutil
import subprocess
import sys

from dt_commands import built_from, completions, executable, installed_pages, release, tool_pages
from dt_commands.progress import Progress
from dt_commands.repository import TOP
from dt_commands.texts import read_text, write_file

# The folders below the prefix.
BIN, SHARE, DOC, MAN = "bin", "share/dthreads", "share/doc/dthreads", "share/man/man1"
# Where bash and zsh look for completions: bash for a file of the command's name.
OF_BASH, OF_ZSH = "share/bash-completion/completions", "share/zsh/site-functions"
COMPLETIONS = {
    completions.BASH: f"{OF_BASH}/dthreads", completions.ZSH: f"{OF_ZSH}/_dthreads",
    tool_pages.BASH: f"{OF_BASH}/{tool_pages.COMMANDS[0]}", tool_pages.ZSH: f"{OF_ZSH}/_dthreads-tools",
}
# What of guest/ isn't the kit: its tests, the lists that a page is made from, and what was built.
NOT_KIT = ("tests", "reference", "out")
COMMANDS = ("dthreads-cc", "dthreads-c++", "dthreads-rustc", "dthreads-cargo", "dthreads-exec", "dthreads-gdb", "dthreads-lines",
            "dthreads-picture")
# The libraries of C++ and Rust, if guest/build-libstdcxx and guest/build-rust were done, and C's, if a program was compiled here.
OTHERS, LIBRARY = ("guest/out/libstdcxx", "guest/out/rust"), "guest/out/libdthreads.a"
PAGES = ("README.md", "CONTRIBUTING.md", "LICENSE-APACHE", "LICENSE-MIT")


def arguments(parser):
    parser.add_argument("prefix", metavar="PREFIX", help="the folder, such as /usr/local or ~/.local")


def say(text):
    print(f"install: {text}", file=sys.stderr, flush=True)


def program():
    """Returns the bytes of the program, or None if there is none of the sources as they are."""
    if release.is_built():
        return executable.stripped(release.bytes_of(release.BUILT))
    recorded = built_from.read(f"{TOP}/{release.RECORD}")
    if recorded and recorded[1] == built_from.listed() and os.path.isfile(f"{TOP}/{release.FILE}"):
        return release.bytes_of(f"{TOP}/{release.FILE}")
    return None


def put(data, file):
    """Writes an executable file in one step, so that a run of the old one goes on."""
    write_file(f"{file}.new", data, 0o755)
    os.replace(f"{file}.new", file)


def link(target, file):
    """Makes a link to a file, by a path that holds wherever the prefix is."""
    if os.path.lexists(file):
        os.remove(file)
    os.symlink(os.path.relpath(target, os.path.dirname(file)), file)


def copy_folder(source, target, without=()):
    if os.path.isdir(target):
        shutil.rmtree(target)
    ignored = lambda folder, names: [it for it in names if folder == source and it in without]
    shutil.copytree(source, target, ignore=ignored)


def install_kit(prefix):
    """Installs the kit, with the samples beside it, and the commands that a user calls."""
    copy_folder(f"{TOP}/guest", f"{prefix}/{SHARE}/guest", NOT_KIT)
    copy_folder(f"{TOP}/samples", f"{prefix}/{SHARE}/samples")
    for it in OTHERS:
        if os.path.isdir(f"{TOP}/{it}"):
            shutil.copytree(f"{TOP}/{it}", f"{prefix}/{SHARE}/{it}")
    if os.path.isfile(f"{TOP}/{LIBRARY}"):
        # (all files keep their times, so dthreads-cc sees there as here whether it is older than a source)
        os.makedirs(f"{prefix}/{SHARE}/guest/out", exist_ok=True)
        shutil.copy2(f"{TOP}/{LIBRARY}", f"{prefix}/{SHARE}/{LIBRARY}")
    for name in COMMANDS:
        link(f"{prefix}/{SHARE}/guest/{name}", f"{prefix}/{BIN}/{name}")
    # (the kit looks for the program beside its folder)
    link(f"{prefix}/{BIN}/dthreads", f"{prefix}/{SHARE}/dthreads")


def install_picture(prefix):
    """Installs the modules that draw timelines."""
    folder = f"{prefix}/{SHARE}/tools"
    if os.path.isdir(folder):
        shutil.rmtree(folder)
    os.makedirs(f"{folder}/dt_commands")
    for it in [f"{TOP}/tools/dt_commands/__init__.py", *glob.glob(f"{TOP}/tools/dt_commands/users/picture*.*")]:
        shutil.copy2(it, f"{folder}/dt_commands")


def write_installed(page, file):
    """Writes a page as it is installed in place of a copy of it."""
    text = read_text(file)
    write_file(file, installed_pages.installed(page, text))


def install_pages(prefix):
    copy_folder(f"{TOP}/docs", f"{prefix}/{DOC}/docs")
    for it in PAGES:
        shutil.copyfile(f"{TOP}/{it}", f"{prefix}/{DOC}/{it}")
    for top in (f"{prefix}/{DOC}", f"{prefix}/{SHARE}"):
        for file in glob.glob(f"{top}/**/*.md", recursive=True):
            write_installed(os.path.relpath(file, top), file)
    for file in glob.glob(f"{TOP}/man/*.1"):
        shutil.copyfile(file, f"{prefix}/{MAN}/{os.path.basename(file)}")


def install_completions(prefix):
    for file, target in COMPLETIONS.items():
        os.makedirs(os.path.dirname(f"{prefix}/{target}"), exist_ok=True)
        shutil.copyfile(f"{TOP}/{file}", f"{prefix}/{target}")
    for name in tool_pages.COMMANDS[1:]:
        link(f"{prefix}/{OF_BASH}/{tool_pages.COMMANDS[0]}", f"{prefix}/{OF_BASH}/{name}")


def build_library(prefix):
    """Builds the C library of the installed kit, if its compiler is there."""
    with Progress("libraries built", 1):
        ran = subprocess.run([f"{prefix}/{BIN}/dthreads-cc", "--library"], stdout=subprocess.PIPE, stderr=subprocess.PIPE, text=True)
    if ran.returncode:
        say(f"the C library is not built: {ran.stderr.strip()}")


def is_installed(prefix):
    """Installs all below a prefix. Returns whether there is a program to install."""
    data = program()
    if data is None:
        say("there is no program of these sources: `./dthreads --build` builds it")
        return False
    for it in (BIN, SHARE, DOC, MAN):
        os.makedirs(f"{prefix}/{it}", exist_ok=True)
    put(data, f"{prefix}/{BIN}/dthreads")
    install_kit(prefix)
    install_picture(prefix)
    install_pages(prefix)
    install_completions(prefix)
    build_library(prefix)
    return True


def run(options):
    prefix = os.path.abspath(os.path.expanduser(options.prefix))
    if not is_installed(prefix):
        return 1
    print(f"installed below {prefix}: {BIN}/dthreads, {', '.join(COMMANDS)}, {SHARE}, {DOC}, {MAN}, {OF_BASH}, {OF_ZSH}")
    return 0
