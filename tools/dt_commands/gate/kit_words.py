"""The words of dthreads-cc, as builds of other programs give them: each case is a command with what it must print or give.

The programs are those of guest/tests/builds. DTHREADS names the program that runs them, or else ./dthreads.
"""
import os
import re
import shutil
import subprocess
import tempfile

from dt_commands import guest_runs
from dt_commands.progress import Progress
from dt_commands.texts import read_text, write_file

# Instructions that take less than a tenth of a second.
SOON = 5000000
# Bytes of a file that is larger than the input may be.
LARGE = 40 << 20
# The programs of the cases, which each has in its folder.
SOURCES = f"{guest_runs.KIT}/tests/builds"


def call(words, room):
    how = {"cwd": room, "stdout": subprocess.PIPE, "stderr": subprocess.PIPE, "text": True, "check": False}
    return subprocess.run([f"{guest_runs.KIT}/dthreads-cc", *words], **how)


def performed(command, *words):
    """Performs a command of the kit."""
    how = {"stdin": subprocess.DEVNULL, "stdout": subprocess.PIPE, "stderr": subprocess.PIPE, "text": True, "check": False}
    environment = {**os.environ, "DTHREADS": guest_runs.program()}
    return subprocess.run([f"{guest_runs.KIT}/{command}", *words], env=environment, **how)


def started(command, room, name, *words):
    """Runs a program by a command of the kit."""
    return performed(command, f"{room}/{name}.elf", *words)


def executed(room, name, *words):
    return started("dthreads-exec", room, name, *words)


def with_workers(room, name, *words):
    """Returns what dthreads-exec gives with 1, 4 and 64 workers: each different status and pair of texts once."""
    runs = [executed(room, name, "--workers", str(it), *words) for it in (1, 4, 64)]
    return {(it.returncode, it.stdout, it.stderr) for it in runs}


def status(room, *words):
    """Returns the status of a program that these words build, or what was said in its place."""
    ran = call([*words, "-o", "program.elf"], room)
    if ran.returncode:
        return ran.stderr
    return subprocess.run([guest_runs.program(), "run", f"{room}/program.elf"], stdin=subprocess.DEVNULL, check=False).returncode


def preprocessed(room):
    """Preprocessed text is the program's alone."""
    write_file(f"{room}/one.c", "int one;\n")
    text = call(["-E", "one.c"], room).stdout
    return [it for it in text.splitlines() if it.strip() and not it.startswith("#")], ["int one;"]


def main_in_archive(room):
    """An archive may have main."""
    call(["-c", "main.c"], room)
    subprocess.run(["riscv64-unknown-elf-ar", "rcs", "libmain.a", "main.o"], cwd=room, check=True)
    return status(room, "-L.", "-lmain"), 7


def warns_once(room):
    """A program that names absent functions is linked, with one warning for each."""
    said = call(["forks.c", "-o", "forks.elf"], room)
    wanted = [f"dthreads-cc: {it}: there are no processes here; the call fails with ENOSYS" for it in ("execv", "fork")]
    return (said.returncode, sorted(said.stderr.splitlines())), (0, wanted)


def visible(room):
    """C++ sees what it sees on Linux."""
    return status(room, "visible.cc"), 7


def models(room):
    """Any model of thread-local storage may be asked for."""
    every = ("global-dynamic", "local-dynamic", "initial-exec", "local-exec")
    return [status(room, f"-ftls-model={it}", "-fPIC", "local.c") for it in every], [7] * 4


def instructions(trace):
    return sum(int(it) for it in re.findall(r"ran=(\d+)", read_text(trace)))


def quantum(room):
    """dthreads-exec has a quantum, so that a sleep ends soon beside a thread that computes, or none, and says what a used-up bound is."""
    call(["-O2", "beside.c", "-o", "beside.elf"], room)
    ways = [["--trace", f"{room}/trace"], ["--bound", "100000000", "--quantum", "100000"], ["--bound", "3000000", "--quantum", "none"]]
    runs = [executed(room, "beside", *it) for it in ways]
    said = runs[-1].stderr.partition("dthreads-exec: ")[2]
    is_soon = instructions(f"{room}/trace") < SOON
    return ([it.returncode for it in runs], is_soon, "--bound" in said and "--quantum" in said), ([0, 0, 120], True, True)


def before(room):
    """dthreads-exec may be put before a program and its words."""
    call(["-rdynamic", "words.c", "-o", "words.elf", "-lutil"], room)
    ran = performed("dthreads-exec", "--env", "WORD=two", "--workers=4", "--run", f"{room}/words.elf", "--", "one", "--run")
    others = [performed("dthreads-exec", *it).returncode for it in (["--run"], ["--seed", "1", "--"], [f"{room}/words.elf", "word"])]
    return (ran.returncode, ran.stdout, others), (3, "words -- one --run two\n", [2, 2, 2])


def prepared(room):
    """dthreads-exec puts a program and its input into a folder, and their run is the one that it makes itself."""
    call(["-rdynamic", "words.c", "-o", "words.elf", "-lutil"], room)
    os.mkdir(f"{room}/put")
    words = ["--env", "WORD=two", "--seed=7", "--quantum", "none"]
    runs = [executed(room, "words", *words, "--digest", f"{room}/digest", "--", "one"),
            executed(room, "words", *words, "--prepare", f"{room}/put", "--", "one")]
    again = [guest_runs.program(), "run", f"{room}/put/words.elf", "--input", f"{room}/put/input", "--digest", f"{room}/again"]
    runs.append(subprocess.run(again, stdout=subprocess.DEVNULL, check=False))
    refused = [executed(room, "words", "--prepare", it).returncode for it in (room, f"{room}/none")]
    is_same = read_text(f"{room}/digest") == read_text(f"{room}/again")
    return ([it.returncode for it in runs], runs[1].stdout, is_same, refused), ([3, 0, 3], "", True, [2, 2])


def explored(room):
    """dthreads-exec explores a program with its words, and tells a command of its own that shows a failing run."""
    call(["-rdynamic", "words.c", "-o", "words.elf", "-lutil"], room)
    ran = executed(room, "words", "--explore", "--runs", "3", "--env", "WORD=two", "--", "one")
    told = re.search(r"^exit 3: dthreads-exec (\S+/words\.elf) (--env WORD=two --shuffle \S+ -- one)$", ran.stdout, re.M)
    shown = performed("dthreads-exec", told[1], *told[2].split()) if told else ran
    found = (ran.returncode, ran.stdout.partition("\n")[0], shown.returncode, shown.stdout)
    refused = executed(room, "words", "--explore", "--out", "a=b").returncode
    return (found, refused), ((1, "3 runs, 1 outcome", 3, "words one two\n"), 2)


def clock(room):
    """The clock of the day begins when the link, dthreads-exec or dthreads-gdb says."""
    call(["-O2", "day.c", "-o", "day.elf"], room)
    call(["-O2", "--clock=2026-11-30", "day.c", "-o", "linked.elf"], room)
    runs = [with_workers(room, "day"), with_workers(room, "day", "--clock", "2026-11-30T17:45:09Z"), with_workers(room, "linked"),
            with_workers(room, "linked", "--clock=1970-01-01T00:01")]
    days = ["Sat Jan  1 00:00:00 2000", "Mon Nov 30 17:45:09 2026", "Mon Nov 30 00:00:00 2026", "Thu Jan  1 00:01:00 1970"]
    debugged = started("dthreads-gdb", room, "day", "--clock", "2026-11-30", "--", "-batch", "-ex", "continue").stderr
    refused = [executed(room, "day", "--clock", it).returncode for it in ("2026-02-29", "1969-12-31", "now")]
    refused += [call([f"--clock={it}", "day.c", "-o", "other.elf"], room).returncode for it in ("2026-02-29", "1969-12-31", "now")]
    return (runs, days[2] in debugged, refused), ([{(0, f"{it}\n", "")} for it in days], True, [2] * 3 + [1] * 3)


def files(room):
    """Files of dthreads-exec may be larger than the input, and may be written."""
    call(["-O2", "whole.c", "-o", "whole.elf"], room)
    total = 0
    with open(f"{room}/large", "wb") as file:
        for number in range(LARGE // 65536):
            file.write(bytes([number % 251]) * 65536)
            total = (total * 31 + number % 251) % 2 ** 32
    write_file(f"{room}/small", "small, and more\n")
    words = ["--file", f"/data/large={room}/large", "--file", f"/data/small={room}/small"]
    found, more = with_workers(room, "whole", *words), executed(room, "whole", *words, "--file", f"/data/more={room}/large")
    return (found, more.returncode, "has room for" in more.stderr), ({(0, f"{LARGE} {total} SMALL, and more\n", "")}, 2, True)


def full(room):
    """At the output's end dthreads-exec says so, and keeps texts apart."""
    call(["-O2", "full.c", "-o", "full.elf"], room)
    said = "279, No space left on device\ndthreads-exec: the output's limit of 16,777,216 bytes was reached: writes beyond it fail with ENOSPC\n"
    return with_workers(room, "full"), {(5, "\0" * 60000 * 279, said)}


def sanitizers(room):
    """A sanitizer whose library isn't here is told in a line, with what to use; one that needs none is compiled."""
    write_file(f"{room}/over.c", "int main(int count, char **words) { int many = 2147483646 + count; return (many + count) / 2 == 0; }\n")
    ran = [call([it, "-c", "over.c"], room) for it in ("-fsanitize=thread", "-fsanitize=address,undefined")]
    told = [(it.returncode, it.stderr.count("\n"), it.stderr.startswith(f"dthreads-cc: {word}: ")) for it, word in
            zip(ran, ("-fsanitize=thread", "-fsanitize=address,undefined"))]
    trapped = status(room, "-O2", "-fsanitize=undefined", "-fsanitize-undefined-trap-on-error", "over.c")
    return (told, "--check" in ran[0].stderr, trapped), ([(1, 1, True)] * 2, True, 120)


CASES = [preprocessed, main_in_archive, warns_once, visible, models, quantum, before, prepared, explored, clock, files, full, sanitizers]


def test(_):
    """Calls dthreads-cc as builds of other programs do, and looks at what it prints and builds."""
    tally = guest_runs.Tally()
    tally.tried = len(CASES)
    with Progress("cases", len(CASES)) as progress:
        for case in progress.each(CASES, lambda it: it.__name__):
            with tempfile.TemporaryDirectory() as room:
                shutil.copytree(SOURCES, room, dirs_exist_ok=True)
                found, wanted = case(room)
            if found != wanted:
                tally.fail(f"{case.__name__}: {found}, wanted {wanted}")
    return tally.status("cases", ": dthreads-cc does what is expected")
