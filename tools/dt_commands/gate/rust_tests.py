"""The tests of the kit for Rust: programs, the tests that std brings with it, and programs over Debian's crates.

They need guest/build-rust, and Debian's packages for it. --programs makes those of guest/tests/rust and samples/rust and the projects
that cargo builds, as the gate does. A line of guest/tests/rust/list has a program, its status, and the words of dthreads-exec. A program marked
`host` gave the output of the host's build; --host compares them anew. --std makes std's own tests from the package rust-web-src, and
--crates programs over crates of Debian's packages. All three take some ten minutes of a processor. --numbers explores each of std's tests of
`sync` by so many numbers, which takes further minutes. Tests that are left out, and those that some numbers break, are named with the
reason. DTHREADS names the program to run the others with, or else ./dthreads.
"""
import hashlib
import os
import re
import shlex
import shutil
import subprocess

from dt_commands import c_page, guest_runs, rust_crates, rust_std
from dt_commands.repository import TOP
from dt_commands.texts import contents, first_difference, rows_of

FOLDER = f"{guest_runs.KIT}/tests/rust"
SAMPLES = f"{TOP}/samples/rust"
PACKAGES = {"rustc-web": "/usr/bin/rustc", "cargo-web": "/usr/bin/cargo", "rust-web-src": "/usr/lib/rustlib/src/rust/library/vendor"}
EDITION = ["--edition", "2021"]
# What is made, each part by an option that leaves the others out.
PARTS = {"programs": "the programs and the projects alone", "std": "std's own tests alone", "crates": "programs over Debian's crates alone"}
# The programs whose list of findings isn't empty: of each access its kind and its line, of misuse its kind and the line of the call.
FOUND = {
    "races": ["store races.rs:15 load races.rs:15", "store races.rs:15 store races.rs:15", "store races.rs:20 store races.rs:20",
              "store races.rs:25 store races.rs:25"],
    "channel_races": ["store channel_races.rs:18 store channel_races.rs:14"],
    # (LLVM begins fetch_max by a plain load)
    "no_std": ["store no_std.rs:68 load no_std.rs:68"],
    "self_locks": ["misuse taken-twice self_locks.rs:9"],
    "lost_update": ["store lost_update.rs:14 load lost_update.rs:14", "store lost_update.rs:14 store lost_update.rs:14"],
}
# What `dthreads-cargo debug` is asked for in the project, with words of gdb, and what it says.
DEBUGGED = [
    ("sums", ["-ex", "backtrace 1", "-ex", "break project::sum_of_squares", "-ex", "continue", "-ex", "print numbers.length"],
     r"#0 +project::tests::sums .*src/lib\.rs:29.*project::sum_of_squares .*\$1 = 5"),
    ("s", [], r"s: more than one test has this name or part:\n  project: tests::panics\n  project: tests::sums\n"),
    ("other", [], r"other: no test has this name:\n  project: tests::panics\n"),
]
# What `dthreads-cargo test --check -` says of the project's test whose threads race.
UNORDERED = re.compile(r"^race of 4 bytes, project::tests::COUNT.*\n  store by thread \d+ in turn \S+ +project::tests::count src/lib\.rs:(\d+)"
                       r"\n  (?:load|store) by thread \d+ in turn \S+ +project::tests::count src/lib\.rs:\1$", re.M)
# What `dthreads-cargo explore` finds by 100 numbers in the project of samples/rust: of each test how it fails, None if by no number.
EXPLORED = {"tests::left_out": "ignored", "tests::lost_wakeup": "deadlock", "tests::two_locks": "deadlock", "tests::limit": "panic",
            "tests::flag": None, "tests::refused": None, "plain": None}
# Words with which `dthreads-cargo explore` explores nothing, and what it says.
REFUSED = [(["--runs", "2", "--lib", "--", "none"], "no test was explored"),
           (["--shuffle", "7"], "--shuffle is of one run, and explore has many"),
           (["--check", "-"], "--check is of one run, and explore has many")]
# The line of a test, with the commands below it, and a command.
TOLD = re.compile(r"^(\S+) +(?:\d+ of \d+ pass|\d+ of \d+ fail, first --shuffle \d+ \((\w+)\).*|(ignored))\n((?:    .*\n)*)", re.M)
COMMAND = re.compile(r"^    dthreads-cargo (test|debug) (.*)$", re.M)
# What a command says of a test that fails so: by itself, and in gdb.
SEEN = {"deadlock": ("^deadlock$", "the run ends here: deadlock"), "panic": (r"^test \S+ \.\.\. FAILED$", "the run ends here: exit 101")}
ACCESS = r"(load|store) \S+ \S+ pc=\S+ at=\S*?([^/\s]+:\d+)"
FINDING = re.compile(rf"race address=\S+ bytes=\d {ACCESS} {ACCESS}|(misuse \S+) .* in=\S+ at=\S*?([^/\s]+:\d+)")


def arguments(parser):
    parser.add_argument("names", nargs="*", metavar="NAME", help="programs, `project`, `explored`, `stealing`, `page`, or parts of std's tests (default: all)")
    parser.add_argument("--host", action="store_true", help="compare the programs with the host's builds, too")
    for name, help_text in PARTS.items():
        parser.add_argument(f"--{name}", action="store_true", help=help_text)
    parser.add_argument("--numbers", type=int, metavar="N", help="explore each of std's tests of `sync` by N numbers, too")
    guest_runs.with_share(parser)


def folder():
    """Returns the folder of Rust's library."""
    return f"{os.environ.get('DTHREADS_RUST') or f'{guest_runs.KIT}/out'}/rust"


def has_rust():
    return os.path.exists(f"{folder()}/stamp")


def why_not():
    """Returns what is missing, and what to do."""
    missing = [name for name, mark in PACKAGES.items() if not os.path.exists(mark)]
    if missing:
        return f"the packages {', '.join(missing)} are missing: apt-get install {' '.join(missing)}, and then guest/build-rust"
    return "guest/build-rust wasn't done"


def compiled(words, out, where):
    """Builds a program by the kit, from a folder. Returns what the compiler said if it is not built, else None."""
    how = {"cwd": where, "stdout": subprocess.PIPE, "stderr": subprocess.STDOUT, "errors": "replace"}
    ran = subprocess.run([f"{guest_runs.KIT}/dthreads-rustc", "-g", "-O", *words, "-o", out], **how)
    return ran.stdout if ran.returncode else None


def short(line):
    """Returns a line of a list of findings as FOUND writes it, or whole if it is of another kind."""
    found = FINDING.match(line)
    return " ".join(filter(None, found.groups())) if found else line


def findings_of(elf, words, given, room):
    """Returns the findings of a run, each as FOUND writes it."""
    findings = f"{room}/findings"
    command = [f"{guest_runs.KIT}/dthreads-exec", elf, "--check", findings, *words]
    with open(given or os.devnull, "rb") as it:
        subprocess.run(command, stdin=it, stdout=subprocess.DEVNULL, stderr=subprocess.DEVNULL, env=environment())
    with open(findings, "rb") as it:
        told = subprocess.run([f"{guest_runs.KIT}/dthreads-lines", elf], stdin=it, stdout=subprocess.PIPE, errors="replace").stdout
    return [short(it) for it in told.splitlines()]


def environment():
    return {**os.environ, "DTHREADS": guest_runs.program()}


def of_host(source, words, given, room):
    """Returns the output and the status of the host's build of a program."""
    name = os.path.basename(source)[:-3]
    subprocess.run(["/usr/bin/rustc", "-O", "-Awarnings", *EDITION, source, "-o", f"{room}/{name}"], check=True)
    arguments_of = words[words.index("--") + 1:] if "--" in words else []
    variables = dict(words[at + 1].split("=", 1) for at, word in enumerate(words) if word == "--env")
    with open(given or os.devnull, "rb") as it:
        ran = subprocess.run([f"{room}/{name}", *arguments_of], stdin=it, stdout=subprocess.PIPE, stderr=subprocess.DEVNULL,
                             env={**os.environ, **variables}, cwd=room)
    return ran.stdout, ran.returncode % 256 if ran.returncode >= 0 else 128 - ran.returncode


class Case:
    """A line of a list: a program in a folder."""

    def __init__(self, where, name, status, *words):
        self.where, self.name, self.status, self.is_like_host = where, name, int(status), "host" in words[:1]
        self.of_compiler = [it for it in words if it.startswith("-C")]
        self.words = [it for it in words[self.is_like_host:] if it not in self.of_compiler]
        self.given = f"{where}/{name}.in" if os.path.exists(f"{where}/{name}.in") else None
        self.wanted = contents(f"{where}/{name}.out") or b""


def test_program(tally, room, case, with_host):
    """Builds and runs a program: output, status, one trace, and its findings."""
    elf = f"{room}/{case.name}.elf"
    said = compiled([*EDITION, *case.of_compiler, f"{case.name}.rs"], elf, case.where)
    if said is not None:
        tally.fail(f"{said}{case.name}: doesn't build")
        return
    guest = guest_runs.Guest([f"{guest_runs.KIT}/dthreads-exec", elf], case.words, case.given, environment=environment())
    guest_runs.agree(tally, case.name, guest, room, case.wanted, case.status)
    found, wanted = findings_of(elf, case.words, case.given, room), FOUND.get(case.name, [])
    if found != wanted:
        tally.fail(f"{case.name}: the findings {found[:5]}, wanted {wanted}")
    if with_host and case.is_like_host:
        output, status = of_host(f"{case.where}/{case.name}.rs", case.words, case.given, room)
        if (output, status) != (case.wanted, case.status):
            tally.fail(f"{case.name}: the host's status is {status}; {first_difference(case.wanted, output)}")


def sums_of(where):
    """Returns the sums of the files of a project, but for those that were built."""
    found = {}
    for at, folders, names in os.walk(where):
        folders[:] = [it for it in folders if it != "target"]
        found.update({f"{at}/{it}": hashlib.sha256(contents(f"{at}/{it}")).hexdigest() for it in names})
    return found


def without_times(text):
    """Returns what the tests said without their seconds, which are the run's."""
    return re.sub(r"finished in [\d.]+s", "finished in *", text)


def test_debugger(tally, where):
    """Debugs a test of the project: gdb stops at its beginning. A name that several tests have is refused with their names."""
    if not has_gdb():
        print("project: gdb isn't there, so dthreads-cargo debug isn't tried: apt-get install gdb-multiarch")
        return
    how = {"cwd": where, "stdin": subprocess.DEVNULL, "stdout": subprocess.PIPE, "stderr": subprocess.STDOUT, "errors": "replace"}
    for name, words, wanted in DEBUGGED:
        command = [f"{guest_runs.KIT}/dthreads-cargo", "debug", "--offline", name, "--", "-batch", *words]
        ran = subprocess.run(command, env=environment(), **how)
        if not re.search(wanted, ran.stdout, re.S):
            tally.fail(f"project: debug {name}: {ran.stdout[-800:]}")


def called(where, *words):
    """Calls dthreads-cargo in a folder. Returns what it gave, standard error apart."""
    how = {"cwd": where, "stdin": subprocess.DEVNULL, "stdout": subprocess.PIPE, "stderr": subprocess.PIPE, "errors": "replace"}
    return subprocess.run([f"{guest_runs.KIT}/dthreads-cargo", *words], env=environment(), **how)


def has_gdb():
    return shutil.which("gdb-multiarch") or shutil.which("riscv64-unknown-elf-gdb")


def test_shown(tally, where, kind, commands):
    """Performs the commands that are told of a test that fails: each shows the run."""
    for command, words in commands:
        is_debug = command == "debug"
        if is_debug and not has_gdb():
            continue
        ran = called(where, command, *shlex.split(words), *(["--", "-batch", "-ex", "delete", "-ex", "continue"] if is_debug else []))
        if not re.search(SEEN[kind][is_debug], ran.stdout + ran.stderr, re.M):
            tally.fail(f"explored: {command} {words}: {(ran.stdout + ran.stderr)[-800:]}")


def test_explored(tally, room):
    """Explores the tests of a project by dthreads-cargo: each bug is found, and the commands that are told show it."""
    where = f"{room}/explored"
    shutil.copytree(f"{SAMPLES}/explored", where)
    before = sums_of(where)
    ran = called(where, "explore", "--offline", "--workers", "4")
    told = TOLD.findall(ran.stdout)
    found = {name: ignored or kind or None for name, kind, ignored, _ in told}
    if (ran.returncode, found) != (1, EXPLORED) or not ran.stdout.endswith("\ntests: 6 explored, 3 failed\n"):
        tally.fail(f"explored: status {ran.returncode}: {ran.stdout}{ran.stderr[-600:]}")
    for _, kind, _, commands in told:
        if kind in SEEN:
            test_shown(tally, where, kind, COMMAND.findall(commands))
    others = [called(where, "explore", "--offline", *it) for it, _ in REFUSED]
    said = [(it.returncode, it.stdout, it.stderr.splitlines()[-1:]) for it in others]
    if said != [(1, "", [f"dthreads-cargo: {it}"]) for _, it in REFUSED]:
        tally.fail(f"explored: {said}")
    if sums_of(where) != before:
        tally.fail("explored: files were changed")


def test_project(tally, room):
    """Builds, runs and tests a project of several crates by dthreads-cargo: it prints project.out, and its own files stay as they are."""
    where, said = f"{room}/project", ""
    shutil.copytree(f"{FOLDER}/project", where)
    before = sums_of(where)
    for words in (["run", "--", "one", "two"], ["run", "--release", "--workers", "4", "--check", "-"], ["test", "--workers=2"], ["bench"]):
        ran = called(where, words[0], "--offline", *words[1:])
        said += f"$ {' '.join(words)}\n{without_times(ran.stdout)}status {ran.returncode}\n"
        if re.search(r"^(race|freed|order|misuse) |error", ran.stderr, re.M):
            tally.fail(f"project: {ran.stderr[-600:]}")
    if said.encode() != contents(f"{FOLDER}/project.out"):
        tally.fail(f"project: {first_difference(said.encode(), contents(f'{FOLDER}/project.out'))}")
    ran = called(where, "test", "--offline", "--lib", "--check", "-", "unordered")
    if ran.returncode or not UNORDERED.search(ran.stderr):
        tally.fail(f"project: test --check -: status {ran.returncode}: {ran.stdout[-300:]}{ran.stderr[-600:]}")
    test_debugger(tally, where)
    after = sums_of(where)
    if after != before:
        tally.fail(f"project: files were changed: {sorted(it for it in {**before, **after} if before.get(it) != after.get(it))}")


def test_stealing(tally, room):
    """Builds and runs the sample whose sum rayon's threads share: it prints stealing.out, in one trace, without a finding."""
    if rust_crates.missing(["rayon"]):
        print("stealing: left out, librust-rayon-dev is missing: apt-get install librust-rayon-dev")
        return
    where = f"{room}/stealing"
    shutil.copytree(f"{SAMPLES}/stealing", where)
    ran = called(where, "build", "--offline", "--release")
    if ran.returncode:
        tally.fail(f"stealing: doesn't build: {ran.stderr[-600:]}")
        return
    elf = f"{where}/target/riscv32im-dthreads/release/stealing"
    guest = guest_runs.Guest([f"{guest_runs.KIT}/dthreads-exec", elf], environment=environment())
    guest_runs.agree(tally, "stealing", guest, room, contents(f"{SAMPLES}/stealing.out"), 0)
    found = findings_of(elf, [], None, room)
    if found:
        tally.fail(f"stealing: findings {found[:3]}")


def test_page(tally, room):
    """Runs the commands of the page."""
    if not c_page.is_as_told("docs/RUST.md"):
        tally.fail("docs/RUST.md says something else")


def tasks(options):
    """Returns what is tried of the programs: a name and a call each."""
    cases = [Case(where, *row) for where in (FOLDER, SAMPLES) if os.path.exists(f"{where}/list") for row in rows_of(f"{where}/list")]
    found = [(it.name, lambda tally, room, it=it: test_program(tally, room, it, options.host)) for it in cases]
    found += [("project", test_project), ("explored", test_explored), ("stealing", test_stealing), ("page", test_page)]
    return [it for it in found if not options.names or it[0] in options.names]


def test_programs(options):
    """Makes the programs and the project."""
    return guest_runs.all_tried("programs in Rust", guest_runs.share(options.share, tasks(options)), lambda tally, room, it: it[1](tally, room),
                                ", each with 1, 2, 4 and 64 workers: the wanted output and findings, and one trace")


def has_any(part, options):
    """Returns whether a part has something of the wanted names."""
    names = {"programs": [name for name, _ in tasks(options)], "std": rust_std.TESTS, "crates": rust_crates.names()}[part]
    return not options.names or any(it in names for it in options.names)


def test(options):
    """Tests programs in Rust, std's own tests, and programs over Debian's crates, each with several numbers of workers."""
    if not has_rust():
        print(f"programs in Rust: left out, {why_not()}")
        return 1
    makes = {"programs": test_programs, "std": rust_std.test, "crates": rust_crates.test}
    chosen = [it for it in PARTS if getattr(options, it)] or [it for it in PARTS if has_any(it, options)]
    return max([makes[it](options) for it in chosen], default=1)
