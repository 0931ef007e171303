"""Tests of the list of sources, of the release that goes with it, and of which program ./dthreads starts."""
import os
import shutil
import struct
import subprocess
import tempfile
import time
import unittest

from dt_commands import built_from, executable, release
from dt_commands.repository import TOP
from dt_commands.texts import read_text, write_file
from rooms import WithRoom

CRATES = """# Each crate, and what it stands on.
low: byteorder
high: low   # the layer above
tests: high
command: high
alone:
"""
FILES = ("low/src/lib.rt", "low/specs/Lib.antt", "high/src/lib.rt", "high/proofs/one/Proof.antt", "command/src/main.rt", "tests/src/lib.rt")
BUILT, RELEASED = "crates/command/out/command", release.FILE
# All that ./dthreads needs of the machine if it has a release to start.
NEEDED = "awk bash cat cmp dirname find grep ln mkdir mktemp mv readlink rm sed sha256sum sh sort stat xargs".split()
# How many seconds old the last change is from which on a choice is kept.
SETTLED = 2.1
# An ELF file with one program header, a segment of 8 bytes, and a section header behind it.
ELF = bytearray(64 + 56 + 8 + 64)
ELF[:6] = executable.MAGIC
struct.pack_into("<QQ", ELF, executable.PROGRAM_HEADERS, 64, 128)
struct.pack_into("<HHHHH", ELF, executable.COUNTS, 56, 1, 64, 1, 0)
struct.pack_into("<QQ", ELF, 64 + 8, 120, 0)
struct.pack_into("<Q", ELF, 64 + 32, 8)
ELF[120:128] = b"segment."


def with_symbols(*names):
    """Returns an ELF file with these symbols: header, names, table, and the section headers of both."""
    texts = b"\0" + b"".join(it.encode() + b"\0" for it in names)
    places = [1 + sum(len(it) + 1 for it in names[:at]) for at in range(len(names))]
    table = b"".join(struct.pack("<I20x", it) for it in places)
    data = bytearray(64) + texts + table
    headers = len(data)
    for kind, offset, size, link in ((3, 64, len(texts), 0), (executable.SYMBOLS, 64 + len(texts), len(table), 0)):
        data += struct.pack("<4xI16xQQI20x", kind, offset, size, link)
    data[:6] = executable.MAGIC
    struct.pack_into("<Q", data, executable.SECTION_HEADERS, headers)
    struct.pack_into("<HH", data, executable.COUNTS + 4, 64, 2)
    return bytes(data)


class Tree(WithRoom):
    """A checkout of five crates."""

    def setUp(self):
        super().setUp()
        self.top = self.room = f"{self.room}/top"
        self.write("crates.txt", CRATES)
        for file in FILES:
            self.write(f"crates/{file}", f"//! {file}\n")

    def listed(self):
        return built_from.listed(self.top)


class Lists(Tree):
    def test_it_has_the_crates_below_the_program_and_no_others(self):
        files = [f"crates/{it}" for it in sorted(FILES) if not it.startswith("tests")]
        names = ["command in crates.txt", "high in crates.txt", "low in crates.txt", *files]
        self.assertEqual(sorted(built_from.named(self.listed())), sorted(names))

    def test_what_it_is_built_from_changes_it_and_nothing_else(self):
        for file, text, name in (
            ("crates/low/src/lib.rt", "//! Other.\n", "crates/low/src/lib.rt"),
            ("crates/low/specs/Lib.antt", "-- Other.\n", "crates/low/specs/Lib.antt"),
            ("crates/high/proofs/one/Proof.antt", "-- Other.\n", "crates/high/proofs/one/Proof.antt"),
            ("crates/high/src/more.rt", "//! More.\n", "crates/high/src/more.rt"),
            ("crates.txt", CRATES.replace("low: byteorder", "low: byteorder itoa"), "low in crates.txt"),
            ("crates.txt", CRATES.replace("low: byteorder", "low: byteorder itoa").replace("tests: high", "tests: high low"), None),
            ("crates/tests/src/lib.rt", "//! Other.\n", None),
            ("crates/low/out/rlib/stamp", "1", None),
            ("crates/low/must-fail/one.edit", "file: src/lib.rt\n", None),
            ("crates/low/src/.lib.rt.swp", "1", None),
        ):
            before = self.listed()
            self.write(file, text)
            with self.subTest(file, name=name):
                self.assertEqual(built_from.differences(before, self.listed()), [name] if name else [])

    def test_the_time_of_a_file_does_not_change_it(self):
        before = self.listed()
        os.utime(f"{self.top}/crates/low/src/lib.rt", (1, 1))
        self.assertEqual(self.listed(), before)

    def test_sha256sum_reads_a_record(self):
        built_from.write(f"{self.top}/list", "kit 1", self.listed())
        words = ["sha256sum", "--check", "--strict", "--quiet", "list"]
        self.assertEqual(subprocess.run(words, cwd=self.top).returncode, 0)
        self.assertEqual(built_from.read(f"{self.top}/list"), ("kit 1", self.listed()))
        self.assertIsNone(built_from.read(f"{self.top}/none"))

    def test_the_repository_has_a_list(self):
        names = built_from.named(built_from.listed(TOP))
        self.assertIn("crates/command/src/main.rt", names)
        self.assertIn("command in crates.txt", names)


class Stripped(unittest.TestCase):
    def test_the_segments_stay_and_the_sections_go(self):
        found = executable.stripped(bytes(ELF))
        self.assertEqual(len(found), 128)
        self.assertEqual(found[120:], b"segment.")
        self.assertEqual(struct.unpack_from("<Q", found, executable.SECTION_HEADERS), (0,))
        self.assertEqual(executable.stripped(found), found)

    def test_what_lies_behind_the_segments_is_no_difference(self):
        other = ELF[:-1] + b"x"
        self.assertEqual(executable.stripped(bytes(other)), executable.stripped(bytes(ELF)))

    def test_an_executable_of_this_machine_runs_without_its_sections(self):
        with open(shutil.which("true"), "rb") as it:
            data = executable.stripped(it.read())
        with tempfile.TemporaryDirectory() as room:
            write_file(f"{room}/true", data)
            os.chmod(f"{room}/true", 0o755)
            self.assertEqual(subprocess.run([f"{room}/true"]).returncode, 0)

    def test_no_executable_is_refused(self):
        self.assertRaises(ValueError, executable.stripped, b"#!/bin/sh\n")
        self.assertRaises(ValueError, executable.names, b"#!/bin/sh\n")

    def test_the_names_of_all_symbols_are_found(self):
        self.assertEqual(executable.names(with_symbols("one", "a::b")), ["one", "a::b"])
        self.assertEqual(executable.names(executable.stripped(bytes(ELF))), [])

    def test_an_instruction_that_the_loop_calls_is_found(self):
        with tempfile.NamedTemporaryFile() as it:
            it.write(with_symbols("main", "hart::near::put", "hart::near_run::run_near"))
            it.flush()
            self.assertEqual(release.wrong_in_loop(it.name), ["a loop of the hart calls hart::near::put, which it must have inline"])

    def test_a_program_without_symbols_is_not_taken_for_one_without_calls(self):
        with tempfile.NamedTemporaryFile() as it:
            it.write(with_symbols("main", "hart::near_run::run_near"))
            it.flush()
            self.assertEqual(release.wrong_in_loop(it.name), [])
            it.seek(0)
            it.truncate()
            it.write(executable.stripped(bytes(ELF)))
            it.flush()
            self.assertIn("has no symbols", release.wrong_in_loop(it.name)[0])
        self.assertIn("isn't there", release.wrong_in_loop("/nowhere")[0])


class Releases(Tree):
    def build(self, data=ELF):
        self.write(BUILT, data, 0o755)
        built_from.write(f"{self.top}/{built_from.OF_BUILD}", "kit 1", self.listed())

    def make(self):
        return release.make(self.top, "kit 1 logic a")

    def compared(self, is_at_odds, text, version="kit 1 logic a"):
        found, said = release.comparison(self.top, version)
        with self.subTest(version):
            self.assertEqual(found, is_at_odds)
            self.assertIn(text, said)

    def setUp(self):
        super().setUp()
        self.patch(release, "say", lambda text: None)
        self.build()
        self.other = ELF.replace(b"segment.", b"another.")

    def test_a_checkout_without_one_is_refused(self):
        self.compared(True, "there is no")

    def test_it_is_what_was_built_whatever_its_symbols_are(self):
        self.assertEqual(self.make(), 0)
        self.assertTrue(os.access(f"{self.top}/{RELEASED}", os.X_OK))
        self.compared(False, f"the program is {RELEASED}, byte for byte (kit 1 logic a)")
        self.build(ELF[:-1] + b"x")
        self.compared(False, "byte for byte")
        both = "kit 1 logic a, and kit 2 logic a of the same logic"
        self.compared(False, f"the program is {RELEASED}, byte for byte ({both})", "kit 2 logic a")

    def test_another_program_of_the_same_sources_is_refused_for_one_kit_and_told_for_others(self):
        self.make()
        self.build(self.other)
        self.compared(True, "is not the program")
        warning = f"WARNING: {RELEASED} DIFFERS from the program built here from the same sources, by another kit"
        self.compared(False, warning, "kit 2 logic a")
        for version in ("kit 2 logic b", "kit 1", ""):
            self.compared(False, "another logic, and not compared: kit 1 logic a", version)

    def test_a_release_of_older_sources_is_told_and_not_refused(self):
        self.make()
        self.write("crates/low/src/lib.rt", "//! Other.\n")
        self.compared(False, "other sources: crates/low/src/lib.rt")

    def test_what_lacks_of_a_release_or_of_the_program_is_refused(self):
        for file, version in ((BUILT, "kit 2 logic a"), (RELEASED, "kit 1 logic a"), (release.RECORD, "kit 1 logic a")):
            self.build()
            self.make()
            os.remove(f"{self.top}/{file}")
            self.compared(True, "", version)

    def test_nothing_is_released_that_was_not_built_from_the_sources(self):
        os.remove(f"{self.top}/{BUILT}")
        self.assertEqual(self.make(), 1)
        self.build()
        time.sleep(0.02)
        self.write("crates/low/src/lib.rt", "//! Other.\n")
        self.assertEqual(self.make(), 1)
        self.assertFalse(os.path.exists(f"{self.top}/{RELEASED}"))

    def test_what_the_gate_built_has_no_record_and_is_newer_than_the_sources(self):
        os.remove(f"{self.top}/{built_from.OF_BUILD}")
        time.sleep(0.02)
        self.write(BUILT, ELF, 0o755)
        self.assertEqual(self.make(), 0)
        self.compared(False, "byte for byte")

    def test_a_program_that_came_after_its_record_is_not_taken_for_that_build(self):
        os.utime(f"{self.top}/{built_from.OF_BUILD}", (1, 1))
        os.utime(f"{self.top}/{BUILT}", (2, 2))
        self.assertFalse(release.is_built(self.top))


class Started(Tree):
    """A checkout whose ./dthreads is started. The programs, rt and the build are scripts that say what they are."""

    def setUp(self):
        super().setUp()
        self.write("tools/dt", '#!/bin/sh\necho "tools/dt $*"\n', 0o755)
        for file in ("dthreads", "tools/list-sources"):
            shutil.copy(f"{TOP}/{file}", f"{self.top}/{file}")
        self.path = f"{self.top}/bin"
        self.write("bin/rt", "#!/bin/sh\necho kit 1\n", 0o755)
        os.mkdir(f"{self.top}/needed")
        for it in NEEDED:
            os.symlink(shutil.which(it), f"{self.top}/needed/{it}")

    def program(self, file, record, version="kit 1"):
        self.write(file, '#!/bin/sh\necho "PROGRAM $*"\n'.replace("PROGRAM", file), 0o755)
        built_from.write(f"{self.top}/{record}", version, self.listed())

    def build(self):
        self.program(BUILT, built_from.OF_BUILD)

    def release(self, version="kit 1"):
        self.program(RELEASED, release.RECORD, version)

    def started(self, *words, script=None, has_rt=True, folder="/", **more):
        path = f"{self.path}:{self.top}/needed" if has_rt else f"{self.top}/needed"
        how = {"stdout": subprocess.PIPE, "stderr": subprocess.PIPE, "universal_newlines": True, "env": {"PATH": path}, "cwd": folder}
        ran = subprocess.run([script or f"{self.top}/dthreads", *words], **how, **more)
        self.said, self.status = ran.stderr, ran.returncode
        return ran.stdout.strip()


class Choices(Started):
    """Which program ./dthreads starts."""

    def test_the_program_built_here_comes_first_and_then_the_release(self):
        self.release()
        self.assertEqual(self.started("run", "x"), f"{RELEASED} run x")
        self.assertEqual((self.said, self.status), ("", 0))
        self.build()
        self.assertEqual(self.started("run", "a b"), f"{BUILT} run a b")
        self.assertEqual(self.said, "")
        self.assertEqual(self.started("--build", "--lanes", "2"), "tools/dt build --lanes 2")

    def test_the_host_shows_the_name_dthreads(self):
        for make, file in ((self.release, RELEASED), (self.build, BUILT)):
            make()
            self.write(file, "#!/bin/sh\ncat /proc/$$/comm\n", 0o755)
            os.utime(f"{self.top}/{file}", (1, 1))
            self.assertEqual(self.started("run"), "dthreads")

    def test_a_program_that_was_built_anew_is_started_under_its_name_too(self):
        self.build()
        self.started("run")
        os.remove(f"{self.top}/{BUILT}")
        self.build()
        self.assertEqual(self.started("run", "x"), f"{BUILT} run x")

    def test_changed_sources_are_built_and_those_changed_back_or_with_other_times_are_not(self):
        file, built = "crates/low/src/lib.rt", "tools/dt build --start --word=:run"
        self.release()
        os.utime(f"{self.top}/{file}")
        self.assertEqual(self.started("run"), f"{RELEASED} run")
        was = os.stat(f"{self.top}/{file}")
        self.write(file, "//! low/src/lib.rx\n")
        os.utime(f"{self.top}/{file}", ns=(was.st_atime_ns, was.st_mtime_ns))
        self.assertEqual(self.started("run"), built)
        self.write(file, "//! low/src/lib.rt\n")
        self.assertEqual(self.started("run"), f"{RELEASED} run")
        self.build()
        self.write(file, "//! Other.\n")
        self.assertEqual(self.started("run", "x", "--trace", "-"), f"{built} --word=:x --word=:--trace --word=:-")

    def test_a_program_that_was_built_by_other_means_since_is_not_taken(self):
        self.build()
        os.utime(f"{self.top}/{built_from.OF_BUILD}", (1, 1))
        self.assertEqual(self.started("run"), "tools/dt build --start --word=:run")

    def test_a_release_is_started_whichever_toolchain_is_here_and_built_anew_if_it_does_not_run(self):
        self.release("kit 2")
        for has_rt in (False, True):
            self.assertEqual(self.started("run", has_rt=has_rt), f"{RELEASED} run")
            self.assertEqual((self.said, self.status), ("", 0))
        for text, mode in (("#!/bin/sh\nexit 1\n", 0o755), ("#!/bin/sh\nexit 0\n", 0o644)):
            self.write(RELEASED, text, mode)
            self.assertEqual(self.started("run"), "tools/dt build --start --word=:run")

    def test_without_a_toolchain_it_says_in_a_line_what_lacks(self):
        self.assertEqual(self.started("run", has_rt=False), "")
        self.assertEqual((self.status, len(self.said.splitlines())), (1, 1))
        self.assertIn("command rt of the Rattle toolchain is not on the PATH", self.said)

    def test_it_is_started_by_a_link_and_from_any_folder(self):
        self.release()
        os.symlink(f"{self.top}/dthreads", f"{self.top}/bin/other")
        self.assertEqual(self.started("run", script=f"{self.top}/bin/other", folder=self.path), f"{RELEASED} run")
        self.assertEqual(self.started("run", script="./dthreads", folder=self.top), f"{RELEASED} run")


class KeptChoices(Started):
    """Which program ./dthreads starts if a choice is kept: the release, of sources that settled. sha256sum says when it is called."""

    BUILDS, CHANGED = "tools/dt build --start", "crates/low/src/lib.rt"

    def setUp(self):
        super().setUp()
        self.sums = f"{self.top}/sums"
        os.remove(f"{self.top}/needed/sha256sum")
        counting = f'#!/bin/sh\n{{ echo >>{self.sums}; }} 2>/dev/null\nexec {shutil.which("sha256sum")} "$@"\n'
        self.write("needed/sha256sum", counting, 0o755)
        self.release()
        self.keep()

    def keep(self):
        """Starts the program, and has the choice kept."""
        time.sleep(SETTLED)
        self.assertEqual(self.chosen(), (RELEASED, True))

    def chosen(self, **how):
        """Returns what is started, and whether the sources were summed for it."""
        if os.path.exists(self.sums):
            os.remove(self.sums)
        return self.started(**how), os.path.exists(self.sums)

    def put(self, file, text):
        """Writes a file, which keeps its time, if it is there."""
        path = f"{self.top}/{file}"
        was = os.stat(path) if os.path.exists(path) else None
        self.write(file, text)
        if was:
            os.utime(path, ns=(was.st_atime_ns, was.st_mtime_ns))

    def test_a_choice_is_taken_without_sums_until_something_changes(self):
        self.assertEqual([self.chosen() for _ in range(2)], [(RELEASED, False)] * 2)
        os.symlink(f"{self.top}/dthreads", f"{self.top}/bin/other")
        self.assertEqual(self.chosen(script=f"{self.top}/bin/other", folder=self.path), (RELEASED, False))
        self.assertEqual(self.chosen(script="./dthreads", folder=self.top), (RELEASED, False))

    def test_a_change_is_seen_with_the_same_size_and_time(self):
        self.put(self.CHANGED, "//! low/src/lib.rx\n")
        self.assertEqual(self.chosen(), (self.BUILDS, True))
        self.put(self.CHANGED, "//! low/src/lib.rt\n")
        self.assertEqual(self.chosen(), (RELEASED, True))

    def test_a_file_in_the_place_of_another_is_seen(self):
        path, was = f"{self.top}/{self.CHANGED}", os.stat(f"{self.top}/{self.CHANGED}")
        self.write("other", "//! low/src/lib.rx\n")
        os.utime(f"{self.top}/other", ns=(was.st_atime_ns, was.st_mtime_ns))
        os.replace(f"{self.top}/other", path)
        self.assertEqual(self.chosen(), (self.BUILDS, True))

    def test_added_and_removed_files_are_seen(self):
        for file in ("crates/low/src/new.rt", "crates/high/proofs/one/two/New.antt", "crates/low/proofs/New.antt"):
            self.write(file, "")
            self.assertEqual(self.chosen(), (self.BUILDS, True), file)
            os.remove(f"{self.top}/{file}")
            self.assertEqual(self.chosen(), (RELEASED, True), file)
        os.remove(f"{self.top}/{self.CHANGED}")
        self.assertEqual(self.chosen(), (self.BUILDS, True))

    def test_a_clock_that_was_set_back_hides_nothing(self):
        self.write(self.CHANGED, "//! low/src/lib.rx\n")
        os.utime(f"{self.top}/{self.CHANGED}", (1, 1))
        self.assertEqual(self.chosen(), (self.BUILDS, True))
        self.write("crates.txt", CRATES.replace("high: low ", "high:     "))
        os.utime(f"{self.top}/crates.txt", (1, 1))
        self.assertEqual(self.chosen(), (self.BUILDS, True))

    def test_a_choice_of_another_clone_is_none_of_this_one(self):
        other = f"{self.top}-other"
        self.addCleanup(shutil.rmtree, other)
        self.put(self.CHANGED, "//! low/src/lib.rx\n")
        shutil.copytree(self.top, other, symlinks=True)
        self.assertTrue(os.path.exists(f"{other}/out/start/told"))
        self.assertEqual(self.chosen(script=f"{other}/dthreads"), (self.BUILDS, True))

    def test_a_clone_that_cannot_be_written_has_no_choice_of_its_own(self):
        for keeps in ("choice", "told"):
            os.remove(f"{self.top}/out/start/{keeps}")
        os.rmdir(f"{self.top}/out/start")
        self.write("out/start", "no folder\n")
        self.assertEqual([self.chosen() for _ in range(2)], [(RELEASED, True)] * 2)
        self.assertEqual((self.said, self.status), ("", 0))
        self.put(self.CHANGED, "//! low/src/lib.rx\n")
        self.assertEqual(self.chosen(), (self.BUILDS, True))

    @unittest.skipIf(os.getuid(), "only root may become another user")
    def test_another_user_takes_the_choice_and_cannot_change_it(self):
        os.chmod(os.path.dirname(self.top), 0o755)
        nobody = lambda: os.setuid(65534)
        self.assertEqual(self.chosen(preexec_fn=nobody), (RELEASED, False))
        os.utime(f"{self.top}/{self.CHANGED}")
        time.sleep(SETTLED)
        self.assertEqual([self.started(preexec_fn=nobody) for _ in range(2)], [RELEASED] * 2)
        self.assertEqual((self.said, self.status), ("", 0))
        self.assertEqual(self.chosen(), (RELEASED, True))

    def test_a_choice_just_after_a_change_is_not_kept(self):
        path, begun = f"{self.top}/{self.CHANGED}", time.time()
        os.utime(path)
        self.assertEqual(self.chosen(), (RELEASED, True))
        is_kept = str(os.stat(path).st_mtime_ns)[-9:] in read_text(f"{self.top}/out/start/told")
        # (on a machine so busy that the call lasted a second, the change was no longer new)
        self.assertFalse(is_kept and time.time() - begun < 1)

    def test_a_change_during_the_sums_is_not_a_part_of_the_choice(self):
        path = f"{self.top}/{self.CHANGED}"
        os.utime(path)
        self.write("needed/sha256sum", f'#!/bin/sh\n{shutil.which("sha256sum")} "$@"\necho "//! low/src/lib.rx" >{path}\n', 0o755)
        time.sleep(SETTLED)
        self.assertEqual(self.started(), RELEASED)
        self.assertEqual(self.started(), self.BUILDS)

    def test_other_programs_are_seen(self):
        self.put(RELEASED, "#!/bin/sh\necho another\n")
        self.assertEqual(self.chosen(), ("another", True))
        self.build()
        self.assertEqual(self.chosen(), (BUILT, True))
        shutil.rmtree(f"{self.top}/crates/command/out")
        self.write(RELEASED, "#!/bin/sh\nexit 1\n", 0o755)
        self.assertEqual(self.chosen(), (self.BUILDS, True))

    def test_what_is_left_of_a_choice_is_none(self):
        for texts in (("", ""), (f"{RELEASED}\0", "1\n"), (f"{RELEASED}\0", ""), ("none\0", "1\n")):
            for name, text in zip(("choice", "told"), texts):
                self.write(f"out/start/{name}", text)
            self.assertEqual(self.chosen(), (RELEASED, True), texts)
