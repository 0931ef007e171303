"""Tests of what is installed: it works without the checkout, and in another place than it was installed to."""
import glob
import os
import re
import shutil
import subprocess
import sys
import tempfile
import unittest
from unittest import mock

from dt_commands import install, installed_pages, man_page, release, tool_pages
from dt_commands.repository import TOP
from dt_commands.texts import read_text, write_file
from rooms import WithRoom, data

HAS_COMPILER = subprocess.run([f"{TOP}/guest/dthreads-cc", "--version"], stdout=subprocess.DEVNULL, stderr=subprocess.DEVNULL).returncode == 0
# What no installation reads.
UNUSED = (".git", "out", "__pycache__", "crates", "changes", "dt_tests", "tests", "reference")
NO_COMPILER = "the compiler of guest programs is missing"

PAGE = data("options.md")


class ManPage(unittest.TestCase):
    def test_sections_tables_items_and_code(self):
        found = list(man_page.body_of(PAGE[PAGE.index("\n## ") :]))
        self.assertEqual(found[:3], [".SH RUN", r"\fBdthreads run FILE [N]\fR runs \fBa\-b\fR\&.", "It ends."])
        self.assertEqual(found[3:6], [".TP", r"\fB\-\-one N\fR", "what it is; default: 1."])
        self.assertEqual(found[6:8], [r".IP \(bu 2", "One item."])
        self.assertEqual(found[8:], [".PP", ".nf", ".RS 4", r"\&.dots", ".RE", ".fi"])

    def test_the_synopsis_has_the_command_lines(self):
        self.assertEqual(man_page.synopsis(PAGE), r"dthreads run \fIFILE\fR [\fIN\fR]")

    @unittest.skipUnless(shutil.which("groff"), "groff is missing")
    def test_groff_has_no_warning(self):
        pages = glob.glob(f"{TOP}/man/*.1")
        self.assertEqual(len(pages), 1 + len(tool_pages.COMMANDS))
        for page in pages:
            ran = subprocess.run(["groff", "-man", "-ww", "-Tutf8", "-z", page], stderr=subprocess.PIPE)
            self.assertEqual(ran.stderr, b"", page)


HELP = """Runs one: it ends:

    one FILE
    one --all

It is two. The words:

    --all=N     the whole,
                of N
    --some      a part: more

    as it is
"""


class ToolPages(unittest.TestCase):
    def test_usage_paragraphs_options_and_blocks(self):
        with mock.patch.object(tool_pages, "help_of", lambda _: HELP):
            page = tool_pages.page("dthreads-exec")
        self.assertIn("dthreads\\-exec \\- runs one: it ends\n.SH SYNOPSIS\none FILE\n.br\none \\-\\-all\n.SH DESCRIPTION\n.PP\nIt is two. The words:\n", page)
        self.assertIn(".TP\n\\fB\\-\\-all=N\\fR\nthe whole, of N\n.TP\n\\fB\\-\\-some\\fR\na part: more\n", page)
        self.assertIn(".nf\n.RS 4\nas it is\n.RE\n.fi\n.SH SEE ALSO\n\\fBdthreads\\fR(1),\n", page)

    def test_each_commands_help_is_its_own_and_needs_no_compiler(self):
        for name in tool_pages.COMMANDS:
            ran = subprocess.run([f"{TOP}/guest/{name}", "--help"], env={"PATH": self.without_compiler()}, stdout=subprocess.PIPE, text=True)
            self.assertEqual((ran.returncode, name in ran.stdout, "Usage:" in ran.stdout), (0, True, False), name)

    def without_compiler(self):
        """Returns a folder with the host's commands that such a help needs."""
        room = tempfile.TemporaryDirectory()
        self.addCleanup(room.cleanup)
        for it in ("bash", "dirname", "env", "python3", "readlink", "sed"):
            os.symlink(sys.executable if it == "python3" else shutil.which(it), f"{room.name}/{it}")
        return room.name

    def test_bash_completes_options_and_files(self):
        text = f". {TOP}/{tool_pages.BASH}; cd {TOP}; COMP_WORDS=(guest/dthreads-exec \"$1\"); COMP_CWORD=1; _dthreads_tools; echo \"${{COMPREPLY[*]}}\""
        for word, wanted in (("--se", "--seed"), ("--sh", "--shuffle"), ("README", "README.md"), ("--none", "")):
            ran = subprocess.run(["bash", "-c", text, "bash", word], stdout=subprocess.PIPE, text=True)
            self.assertEqual(ran.stdout, f"{wanted}\n")


README = data("readme.md")


class Pages(unittest.TestCase):
    def test_a_page_has_the_installed_names_and_nothing_of_a_clone_alone(self):
        found = installed_pages.installed("README.md", README)
        wanted = README.replace("## Install, build, first run\n\nIn the clone.\n\n", "").replace("./dthreads run", "dthreads run")
        wanted = wanted.replace("guest/dthreads-c++", "dthreads-c++").replace("tools/dt test         runs every test\n.ci/run               the gate\n", "")
        wanted = wanted.replace("../dthreads` and `tools/dt picture`", "dthreads` and `dthreads-picture`").replace("(samples/", "(../../dthreads/samples/")
        self.assertEqual(found, wanted.replace("# Name\n", f"# Name\n\n{installed_pages.WHERE}"))

    def test_a_section_that_is_left_out_must_be_there(self):
        with self.assertRaises(SystemExit):
            installed_pages.installed("README.md", "# Name\n")


class OfACopy(WithRoom):
    """Has a copy of the checkout, whose release is of its sources, and installs from it to a prefix."""

    is_long = True

    def setUp(self):
        super().setUp()
        self.copy, self.prefix = f"{self.room}/copy", f"{self.room}/prefix"
        shutil.copytree(TOP, self.copy, symlinks=True, ignore=shutil.ignore_patterns(*UNUSED))
        os.makedirs(f"{self.copy}/crates/command/src")
        self.release()

    def release(self):
        """Has the copy's release be of its sources: of the one crate that the program has there, since it is not what this tests."""
        write_file(f"{self.copy}/crates.txt", "command:\n")
        write_file(f"{self.copy}/crates/command/src/main.rt", "//! The program.\n")
        record = f"{self.copy}/{release.RECORD}"
        listed = subprocess.run([f"{self.copy}/tools/list-sources"], stdout=subprocess.PIPE, check=True, text=True).stdout
        with open(record, encoding="utf-8") as it:
            version = it.readline()
        write_file(record, version + listed)

    def install(self):
        """Installs, and returns what was said."""
        words = [f"{self.copy}/tools/dt", "install", self.prefix]
        ran = subprocess.run(words, stdout=subprocess.PIPE, stderr=subprocess.PIPE, text=True)
        self.assertEqual(ran.returncode, 0, ran.stderr)
        return ran.stderr

    def take_library(self):
        """Gives the copy the checkout's own C library, which is built if it isn't there: the next call of these tests has it then."""
        ran = subprocess.run([f"{TOP}/guest/dthreads-cc", "--library"], stdout=subprocess.PIPE, stderr=subprocess.DEVNULL, text=True)
        if ran.returncode == 0:
            os.makedirs(f"{self.copy}/guest/out")
            shutil.copy2(f"{ran.stdout.strip()}/libdthreads.a", f"{self.copy}/{install.LIBRARY}")

    def share(self, file):
        return f"{self.prefix}/share/dthreads/{file}"


class Library(OfACopy):
    """The C library in a prefix. To be built in a moment, it has two of its sources alone."""

    def setUp(self):
        super().setUp()
        for it in glob.glob(f"{self.copy}/guest/library/*/*.c"):
            if os.path.basename(it) not in ("quick_exit.c", "status.c"):
                os.remove(it)

    def test_it_is_built_if_its_compiler_is_there(self):
        said = self.install()
        if "is missing" in said:
            self.assertIn("the C library is not built: dthreads-cc: the package", said)
        else:
            self.assertTrue(os.path.isfile(self.share(install.LIBRARY)), said)

    @unittest.skipUnless(HAS_COMPILER, NO_COMPILER)
    def test_the_one_of_the_checkout_serves_as_long_as_no_source_of_it_changed(self):
        os.makedirs(f"{self.copy}/guest/out")
        write_file(f"{self.copy}/{install.LIBRARY}", "a library\n")
        self.install()
        with open(self.share(install.LIBRARY), "rb") as it:
            self.assertEqual(it.read(), b"a library\n")
        os.utime(f"{self.copy}/{install.LIBRARY}", (1, 1))
        self.install()
        with open(self.share(install.LIBRARY), "rb") as it:
            self.assertEqual(it.read(8), b"!<arch>\n")

    @unittest.skipUnless(HAS_COMPILER, NO_COMPILER)
    def test_of_several_calls_one_builds_it(self):
        # (the tool that makes the archive tells of each call, and takes its time)
        tool, told = "riscv64-unknown-elf-ar", f"{self.room}/told"
        os.makedirs(f"{self.room}/tools")
        write_file(f"{self.room}/tools/{tool}", f'#!/bin/sh\necho >> {told}\nsleep 0.2\nexec {shutil.which(tool)} "$@"\n')
        os.chmod(f"{self.room}/tools/{tool}", 0o755)
        environment = {**os.environ, "PATH": f"{self.room}/tools:{os.environ['PATH']}"}
        words = [f"{self.copy}/guest/dthreads-cc", "--library"]
        calls = [subprocess.Popen(words, stdout=subprocess.PIPE, env=environment, text=True) for _ in range(3)]
        self.assertEqual([it.communicate()[0] for it in calls], [f"{self.copy}/guest/out\n"] * 3)
        self.assertEqual(read_text(told), "\n")


@unittest.skipUnless(shutil.which("dpkg-deb"), "dpkg-deb is missing")
class Packaged(OfACopy):
    """What the Debian package has, unpacked elsewhere. tools/dt test package installs it."""

    def setUp(self):
        super().setUp()
        self.take_library()

    def test_it_has_what_is_installed_in_debians_places(self):
        said = subprocess.run([f"{self.copy}/tools/dt", "package", self.room], stdout=subprocess.PIPE, check=True, text=True).stdout
        file = f"{self.room}/dthreads_0.1.0_amd64.deb"
        self.assertRegex(said, f"^{file}: [0-9,]+ bytes; apt-get install {file}\n$")
        subprocess.run(["dpkg-deb", "--extract", file, self.prefix], check=True)
        ran = subprocess.run([f"{self.prefix}/usr/bin/dthreads", "--version"], stdout=subprocess.PIPE, check=True, text=True)
        self.assertEqual(ran.stdout, "dthreads 0.1.0\n")
        for it in ("zsh/vendor-completions/_dthreads", "bash-completion/completions/dthreads", "man/man1/dthreads.1.gz", "doc/dthreads/copyright",
                   "man/man1/dthreads-exec.1.gz", "bash-completion/completions/dthreads-gdb", "zsh/vendor-completions/_dthreads-tools"):
            self.assertTrue(os.path.isfile(f"{self.prefix}/usr/share/{it}"), it)
        self.assertEqual(sorted(os.listdir(f"{self.prefix}/usr")), ["bin", "share"])
        self.assertEqual(glob.glob(f"{self.prefix}/**/__pycache__", recursive=True), [])
        self.has_fields(file)

    def has_fields(self, file):
        """Looks at the fields of the package: they name the compiler and its size."""
        told = subprocess.run(["dpkg-deb", "--field", file], stdout=subprocess.PIPE, check=True, text=True).stdout
        for it in ("gcc-riscv64-unknown-elf", "binutils-riscv64-unknown-elf", "picolibc-riscv64-unknown-elf", "1.2 GB"):
            self.assertIn(it, told)
        self.assertRegex(told, r"(?m)^Architecture: amd64$")

    def test_without_a_program_there_is_no_package(self):
        os.remove(f"{self.copy}/{release.FILE}")
        ran = subprocess.run([f"{self.copy}/tools/dt", "package", self.room], stdout=subprocess.PIPE, stderr=subprocess.PIPE, text=True)
        self.assertEqual((ran.returncode, glob.glob(f"{self.room}/*.deb")), (1, []))
        self.assertIn("there is no program of these sources", ran.stderr)


class Installed(OfACopy):
    """What is installed from a copy of the checkout; then the copy goes, and the prefix is moved."""

    def setUp(self):
        super().setUp()
        self.take_library()
        self.install()
        shutil.rmtree(self.copy)
        first, self.prefix = self.prefix, f"{self.prefix}-moved"
        os.rename(first, self.prefix)

    def called(self, *words, **how):
        environment = {**os.environ, "PATH": f"{self.prefix}/bin:{os.environ['PATH']}"}
        environment.pop("DTHREADS", None)
        return subprocess.run(words, cwd="/", env=environment, stdin=subprocess.DEVNULL, stdout=subprocess.PIPE, stderr=subprocess.PIPE, **how)

    def test_it_works_from_any_folder(self):
        self.assertEqual(self.called("dthreads", "--version").stdout.split()[0], b"dthreads")
        race = self.share("samples/race")
        ran = self.called("dthreads", "run", f"{race}.elf", "--trace", "-")
        with open(f"{race}.trace", "rb") as it:
            self.assertEqual((ran.returncode, ran.stdout), (2, it.read()))
        for name in install.COMMANDS:
            helped = self.called(name, "--help")
            self.assertEqual((helped.returncode, re.findall(rb"guest/dthreads\S*|tools/dt \S*", helped.stdout)), (0, []), name)
        self.assertTrue(os.path.exists(f"{self.prefix}/share/dthreads/guest/dthreads.gdb"))
        self.executes_a_linked_sample()
        self.compiles()

    def test_the_pages_speak_of_what_is_installed(self):
        pages = glob.glob(f"{self.prefix}/share/**/*.md", recursive=True)
        self.assertGreater(len(pages), 15)
        for page in pages:
            text = read_text(page)
            self.assertEqual(re.findall(r"(?<![\w/.])\.\.?/dthreads\b(?! --build)|tools/dt picture|guest/dthreads-", text), [], page)
            for link in re.findall(r"\]\(([^)\s]+)\)", re.sub(r"^```.*?^```$", "", text, flags=re.M | re.S)):
                if not re.match(r"[a-z]+:|#", link):
                    self.assertTrue(os.path.exists(os.path.join(os.path.dirname(page), link.partition("#")[0])), f"{page}: {link}")

    def test_a_timeline_is_drawn(self):
        timeline = f"{self.prefix}/race.timeline"
        self.called("dthreads", "run", self.share("samples/race.elf"), "--timeline", timeline)
        self.assertIn(b"<svg", self.called("dthreads-picture", timeline).stdout)
        self.assertEqual(self.called("dthreads-picture", "none").stderr, b"dthreads-picture: cannot read none: No such file or directory\n")

    def executes_a_linked_sample(self):
        ran = self.called("dthreads-exec", self.share("samples/c/counter.elf"), "--workers", "2")
        self.assertEqual((ran.returncode, ran.stdout, ran.stderr), (0, b"counter 2000 of 2000\n", b""))

    def compiles(self):
        """Compiles a small program, if the compiler is there; else dthreads-cc names the package."""
        elf = f"{self.prefix}/race.elf"
        ran = self.called("dthreads-cc", "-O2", self.share("samples/c/race.c"), "-o", elf, text=True)
        if ran.returncode:
            self.assertRegex(ran.stderr, r"^dthreads-cc: the package \S+ is missing")
            return
        self.assertTrue(os.path.exists(self.share(install.LIBRARY)))
        self.assertEqual(self.called("dthreads", "run", elf).stdout, b"counter 1000 of 2000\n")
