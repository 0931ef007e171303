"""Out-of-memory errors that a source makes up.

A function that was refused memory hands the error on, by `?` or in an arm whose pattern names it. So these are refused:
- a value `AllocError`;
- a value `..::OutOfMemory` with no error inside, except in the `impl From<AllocError>` of its type, in an arm whose pattern or
  guard names out of memory, and in the block of an `if` whose condition names it.
A name is a pattern if `=>`, `|`, `if` or the `=` of a `let` follows it; whatever else follows, it is a value. Which arm or block is round it
is seen by indentation, as `rt fmt` makes it.

It prints each such value, each exception of its lists that matches no line, and ends with 1 if there is any. Files that only tests use
(modules under `#[cfg(test)]`, and the fakes listed here) may make such values.
"""
import os
import re

from .repository import TOP
from .sources import code_of, files_of, for_tests
from .texts import read_text

VALUE = re.compile(r"\bAllocError\b|\b\w+::OutOfMemory\b(?!\()")
# What stands right before or behind a type, a pattern, and what is compared.
BEFORE_TYPE, BEHIND_TYPE = re.compile(r"((?<!:):|->|<|\b(for|as|dyn)|&)\s*\Z"), re.compile(r">|::")
BEHIND_PATTERN = re.compile(r"\)*\s*(=>|\|(?!\|)|if\b)|\)+\s*=(?!=)")
BEFORE_COMPARED, BEHIND_COMPARED = re.compile(r"[=!]=\s*\Z"), re.compile(r"\s*[=!]=")
# The head of an arm or of the block of an `if`, up to what it gives.
HEAD = re.compile(r"(.*)=>|(?:.*\W)?if\b(.*)\{$")

# Fakes that tests put in the place of a reader or a writer, and the programs that tell refusals by themselves.
FAKES = {
    "crates/test_output_files/src/faults.rt",
    "crates/test_alloc_failures/src/worlds.rt",
    "crates/test_parts/src/files.rt",
}

# Lines that hand on the only error that the call before them has, an `AllocError`, or that a run which writes nothing can have; and those
# of a recorder that says so again, once a request was refused.
HANDED_ON = {
    ("crates/schedule_core/src/event_fault.rt", "EventFault::OutOfMemory"),
    ("crates/elf32_reader/src/reader.rt", "Err(_) => Err(ElfFault::OutOfMemory),"),
    ("crates/command_requests/src/arguments.rt", ".map_err(|_| Failure::OutOfMemory),"),
    ("crates/command_line/src/listings.rt", "Err(_) => Err(Failure::OutOfMemory),"),
    ("crates/timeline/src/motion.rt", "Err(_) => Err(AllocError),"),
    ("crates/explored_runs/src/shuffled.rt", "Interruption::OutOfMemory => AllocError,"),
    ("crates/small_schedules/src/walking.rt", "Err(TurnFault::OutOfMemory | TurnFault::WriteFailed) => Err(AllocError),"),
    ("crates/races/src/recorder.rt", "return Err(AllocError);"),
    ("crates/races/src/lock_order.rt", "return Err(AllocError);"),
    ("crates/races/src/finding_recorder.rt", "return Err(AllocError);"),
    ("crates/races/src/freed_recorder.rt", "return Err(AllocError);"),
    ("crates/races/src/misuse_recorder.rt", "return Err(AllocError);"),
    ("crates/trace_events/src/timeline_recorder.rt", "self.failure = Some(TurnFault::OutOfMemory);"),
}

# Lines that say so after more work than any host has time for: a run of 2^63 turns, of 2^62 turns and changed bytes, or of 2^62
# events, 2^64 library regions in one another, 2^64 instructions, and 2^32 accesses that differ on a page.
BEYOND_ANY_HOST = {
    ("crates/token/src/serial.rt", "return Err(TurnFault::OutOfMemory);"),
    ("crates/sharing_report/src/sharing_recorder.rt", "return Err(TurnFault::OutOfMemory);"),
    ("crates/races/src/steps.rt", "return Err(AllocError);"),
    ("crates/races/src/depths.rt", "None => Err(AllocError),"),
    ("crates/races/src/page_history.rt", "return Err(AllocError);"),
    ("crates/trace_events/src/sum.rt", "None => Err(TurnFault::OutOfMemory),"),
}


def is_in_matches(before):
    """Whether what follows a text is the pattern of a `matches!`."""
    inside = before.rpartition("matches!(")[2] if "matches!(" in before else ""
    while re.search(r"\([^()]*\)", inside):
        inside = re.sub(r"\([^()]*\)", "", inside)
    return ")" not in inside and "," in inside.partition("(")[0]


def heads_round(lines, at, column):
    """Yields the heads of the arms, blocks and items round a place, the innermost first."""
    yield lines[at][:column]
    indent = len(lines[at]) - len(lines[at].lstrip())
    for line in reversed(lines[:at]):
        own = len(line) - len(line.lstrip())
        if line.strip() and own < indent:
            indent = own
            yield line


def is_handed_on(lines, at, column):
    """Whether a place is in a conversion of an allocator's error, or the innermost arm or block round it names out of memory."""
    heads = list(heads_round(lines, at, column))
    named = next((it[1] or it[2] for it in map(HEAD.match, heads) if it), "")
    return bool(re.search(r"\b(OutOfMemory|AllocError)\b", named)) or any(it.startswith("impl From<AllocError> for ") for it in heads)


def complaints(source):
    """Returns, for each value of a source that says out of memory and was not told, its line and its name."""
    code = code_of(source)
    lines, found = code.split("\n"), []
    for value in VALUE.finditer(code):
        before, behind, name = code[: value.start()], code[value.end() :], value[0].rpartition("::")[2]
        is_type = name == "AllocError" and (BEFORE_TYPE.search(before[-9:]) or BEHIND_TYPE.match(behind))
        is_compared = BEFORE_COMPARED.search(before[-9:]) or BEHIND_COMPARED.match(behind)
        if is_type or is_compared or BEHIND_PATTERN.match(behind) or is_in_matches(before.rpartition(";")[2]):
            continue
        at = before.count("\n")
        if name == "AllocError" or not is_handed_on(lines, at, value.start() - before.rfind("\n") - 1):
            found.append((at + 1, name))
    return found


def lines_found(top):
    """Returns the number of sources, and file, line number, name and text of each value that nobody told."""
    files = list(files_of(top))
    tests, found = for_tests(files), []
    for file in files:
        name = os.path.relpath(file, top)
        if name in FAKES or file in tests:
            continue
        text = read_text(file)
        lines = text.split("\n")
        found += [(name, number, what, lines[number - 1].strip()) for number, what in complaints(text)]
    return len(files), found


def check(options):
    """Checks that no source file makes up an out-of-memory error."""
    count, found = lines_found(TOP)
    excepted = HANDED_ON | BEYOND_ANY_HOST
    matched = {(name, line) for name, _, _, line in found}
    bad = [f"{name}:{number}: makes up an {what}: {line}" for name, number, what, line in found if (name, line) not in excepted]
    bad += [f"{name}: no such value is there, so the exception must go: {line}" for name, line in sorted(excepted - matched)]
    bad += [f"{name}: no such file is there, so the exception must go" for name in sorted(FAKES) if not os.path.exists(f"{TOP}/{name}")]
    for it in bad:
        print(it)
    print(f"{count} sources, {len(bad)} made-up errors of memory and needless exceptions")
    return 1 if bad or not count else 0
