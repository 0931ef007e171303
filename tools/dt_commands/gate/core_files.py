"""Core files of runs, read by gdb and by readelf.

The kit builds each program of PROGRAMS, which is run with `--core`. gdb-multiarch must show its threads, the one that trapped or exited
first, with a backtrace of each that begins in the named function, and the value of a global. readelf must read headers and notes without a
complaint. It needs Debian's gdb-multiarch, gcc-riscv64-unknown-elf and binutils-riscv64-unknown-elf. DTHREADS names the program that runs
the guests, or else ./dthreads.
"""
import os
import re
import subprocess
from collections import namedtuple

from dt_commands import guest_runs, packages
from dt_commands.repository import TOP

TOOLS = {"gdb-multiarch": "gdb-multiarch", "binutils-riscv64-unknown-elf": "riscv64-unknown-elf-readelf"}
SECONDS = 60
# A program: its source with the options of the compiler, the status of its run, what gdb says of its signal, its threads (their pids, the
# first one first), functions of which each is in some thread's backtrace, and what gdb prints of expressions.
Program = namedtuple("Program", "source options status signal threads functions values")
PROGRAMS = [
    Program("samples/c/race.c", ["-O2"], 1, None, [1, 2, 3], ["_exit"], {"counter": "1000"}),
    Program("samples/debugging/deadlock.c", ["-Og"], 121, None, [1, 2], ["main", "take_right", "pthread_mutex_lock"], {}),
    Program("samples/debugging/trap.c", ["-Og"], 120, "SIGSEGV, Segmentation fault", [1, 2], ["length", "main"], {"name": "0x0"}),
]


def said(words):
    """Returns what a tool prints, on standard output and on standard error."""
    how = {"stdin": subprocess.DEVNULL, "stdout": subprocess.PIPE, "stderr": subprocess.STDOUT, "errors": "replace"}
    environment = {**os.environ, "LC_ALL": "C", "TERM": "dumb"}
    return subprocess.run(words, timeout=SECONDS, env=environment, check=False, **how).stdout


def of_gdb(program, elf, core):
    """Yields what is wrong with what gdb shows of a core file."""
    asked = ["info threads", "thread apply all backtrace", *(f"print {it}" for it in program.values)]
    words = ["gdb-multiarch", "-nx", "-batch", "-iex", "set debuginfod enabled off", "-iex", "set width 0"]
    text = said([*words, *(word for it in asked for word in ("-ex", it)), elf, core])
    threads = [int(it) for it in re.findall(r"^\[New LWP (\d+)\]$", text, re.M)]
    if threads != program.threads:
        yield f"gdb has the threads {threads}, wanted {program.threads}: {text[:300]}"
    signal = re.search(r"^Program terminated with signal (.*)\.$", text, re.M)
    if (signal and signal[1]) != program.signal:
        yield f"gdb says {signal[0] if signal else 'nothing of a signal'}, wanted {program.signal}"
    for function in program.functions:
        if not re.search(rf"^#\d+ .*\b{function} \(", text, re.M):
            yield f"no backtrace has {function}: {text[:2000]}"
    for count, (expression, value) in enumerate(program.values.items(), 1):
        if not re.search(rf"^\${count} = {re.escape(value)}$", text, re.M):
            yield f"gdb doesn't print {value} for {expression}"


def of_readelf(program, core):
    """Yields what is wrong with what readelf says of a core file."""
    text = said(["riscv64-unknown-elf-readelf", "-W", "-h", "-l", "-n", core])
    for line in text.splitlines():
        if re.search("warning|error", line, re.I):
            yield f"readelf says: {line}"
    if text.count("NT_PRSTATUS") != len(program.threads):
        yield f"readelf finds {text.count('NT_PRSTATUS')} notes, wanted {len(program.threads)}"
    if "CORE (Core file)" not in text or "RISC-V" not in text:
        yield "readelf doesn't take it for a core file of RISC-V"


def of_program(program, room):
    """Yields what is wrong with the core file of a program."""
    elf, core = (f"{room}/{os.path.basename(program.source)}.{it}" for it in ("elf", "core"))
    refused = guest_runs.compiled([*program.options, "-g", program.source], elf, TOP)
    if refused is not None:
        yield f"it doesn't build: {refused}"
        return
    words = [guest_runs.program(), "run", elf, "--core", core]
    ran = subprocess.run(words, stdin=subprocess.DEVNULL, stdout=subprocess.DEVNULL, stderr=subprocess.PIPE, timeout=SECONDS, check=False)
    if ran.returncode != program.status or not os.path.exists(core):
        yield f"its run ended with {ran.returncode}, wanted {program.status}: {ran.stderr[:200].decode(errors='replace')}"
        return
    yield from of_gdb(program, elf, core)
    yield from of_readelf(program, core)


def test_core(tally, room, program):
    for it in of_program(program, room):
        tally.fail(f"{program.source}: {it}")


def test(_):
    """Runs programs with --core, and looks at their core files with gdb-multiarch and readelf."""
    packages.want("core files are read by the packages", TOOLS)
    return guest_runs.all_tried("core files", PROGRAMS, test_core, ", each read by gdb and by readelf")
