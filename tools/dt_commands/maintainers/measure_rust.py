"""Counts the turns and instructions of operations of Rust's std, and what programs execute that print a line.

Each operation is done 100 times, in another thread or between two: a row of the table says how many turns and instructions one takes, and
how many turns it may take at most. A row of a program has the instructions that it executes in all, or before main, and how many it may.
The status is 1 if one takes more. It needs guest/build-rust; the rows of the program in C++ need guest/build-libstdcxx, too. DTHREADS
names the program to run them with, or else ./dthreads.
"""
import os
import subprocess
from collections import namedtuple

from dt_commands import guest_runs, guest_tests, rust_tests
from dt_commands.measuring import table
from dt_commands.repository import TOP
from dt_commands.texts import read_text, write_file

SOURCE = f"{TOP}/tools/guests/operations.rs"
# (the first times of an operation may be others)
TIMES, FIRST = 100, 20
# A row: its name, what is counted, by the program's word, and how many turns or instructions it may take at most.
Row = namedtuple("Row", "name word most")
OPERATIONS = [
    Row("spawn and join", "spawn", 20), Row("`fetch_add`, 32 bits", "fetch_add", 2), Row("`fetch_add`, 64 bits", "fetch_add_64", 2),
    Row("`Mutex`: lock and unlock", "mutex", 2), Row("`RwLock`: read", "read", 4), Row("`RwLock`: write", "write", 2),
    Row("`Condvar`: both sides of an exchange", "condvar", 4), Row("`OnceLock`: get", "once", 0), Row("`Arc`: clone and drop", "arc", 4),
    Row("`mpsc`: send and recv", "mpsc", 12), Row("park and unpark", "park", 10), Row("`println!`", "println", 3),
]
HELLO = 'fn main() {\n    println!("hello");\n}\n'
# (without a word, main ends at once)
HELLO_CXX = """#include <iostream>
#include <unistd.h>
int main(int count, char **) {
    if (count == 1)
        _exit(0);
    std::cout << 1.5 << std::endl;
}
"""
PROGRAMS = [Row("a program in Rust that prints a line, in all", ["hello.rs"], 40000)]
PROGRAMS_CXX = [Row("a program in C++ with streams, before `main`", ["hello.cc"], 30000), Row("the same, in all", ["hello.cc", "all"], None)]


def built(source, room):
    """Builds one of the programs, unless that was done. Returns its file."""
    elf = f"{room}/{os.path.basename(source)}.elf"
    if os.path.exists(elf):
        return elf
    if source.endswith(".cc"):
        return guest_runs.built(["-O2", source], elf)
    said = rust_tests.compiled([*rust_tests.EDITION, source], elf, room)
    if said is not None:
        raise SystemExit(said)
    return elf


def counted(elf, words, room):
    """Returns how many turns and instructions a run takes."""
    trace = f"{room}/trace"
    command = [f"{guest_runs.KIT}/dthreads-exec", elf, "--quantum", "none", "--trace", trace, "--", *words]
    subprocess.run(command, stdin=subprocess.DEVNULL, stdout=subprocess.DEVNULL, env=rust_tests.environment(), check=True)
    lines = read_text(trace).splitlines()
    return len(lines), sum(int(it.rpartition("ran=")[2]) for it in lines)


def of_operation(word, room):
    """Returns how many turns and instructions an operation takes."""
    elf = built(SOURCE, room)
    many, few = (counted(elf, [word, str(it)], room) for it in (FIRST + TIMES, FIRST))
    return tuple((one - other) / TIMES for one, other in zip(many, few))


def of_program(words, room):
    """Returns how many turns and instructions a program takes."""
    source = f"{room}/{words[0]}"
    write_file(source, HELLO_CXX if words[0].endswith(".cc") else HELLO)
    return counted(built(source, room), words[1:], room)


def measure(options):
    """Counts the turns and instructions of each operation of Rust's std, and those of programs that print a line."""
    if not rust_tests.has_rust():
        raise SystemExit(rust_tests.why_not())
    over = []

    def rows(row, room):
        is_program = isinstance(row.word, list)
        turns, instructions = of_program(row.word, room) if is_program else of_operation(row.word, room)
        over.extend([row.name] if row.most is not None and (instructions if is_program else turns) > row.most else [])
        most = "-" if row.most is None else f"{row.most:,} {'instructions' if is_program else 'turns'}"
        yield [row.name, f"{turns:g}", f"{instructions:,.0f}", most + (" over" if row.name in over else "")]

    every = [*OPERATIONS, *PROGRAMS, *(PROGRAMS_CXX if guest_tests.has_cxx() else [])]
    return table(["Operation or program", "Turns", "Instructions", "At most"], every, rows) or bool(over)
