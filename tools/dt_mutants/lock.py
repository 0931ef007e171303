"""The file mutants.lock: for each crate with mutants, the sum of all that its last full round read, and the verdicts of that round.

A round reads the crate's sources, specs and proofs, its line of crates.txt, what each crate of the repository below it serves, the
crate's mutants, its lines of tools/weak-mutants, the toolchain's logic, and the modules of this tool that decide or carry out a round. It
reads nothing else: no page, no must-fail edit and nothing in out/ changes a sum, nor does a function of a crate below that only this
crate can call, nor the body of another. Toolchains of one logic prove the same statements, so another version of the same logic has the
same sums.

An entry is the line `CRATE SUM`, and below it a line `  EDIT FUNCTION GOAL` for each function that refused an edit, with the first goal of
it that the check named. Only a finished trial makes one.
"""
import collections
import functools
import hashlib
import os

from dt_commands import kit
from dt_commands.repository import TOP, below, crates
from dt_mutants import served, weak
from dt_mutants.edits import edits_of
from dt_mutants.trials import NOWHERE

LOCK = f"{TOP}/mutants.lock"
# The folders of a crate that a check reads.
PARTS = ("src", "specs", "proofs")
# The modules that decide or carry out a round. Others only print, put rounds in an order, or choose the crates that are tried.
MODULES = [f"dt_mutants/{it}.py" for it in ("edits", "functions", "left", "lock", "rounds", "served", "trials", "verdicts", "weak")]
MODULES += [f"dt_commands/{it}.py" for it in ("kit", "mutants", "repository")]

# What the lock has of a crate: the sum, and a set of verdicts, each the names of an edit, a function and a goal.
Entry = collections.namedtuple("Entry", "sum verdicts")


def read():
    """Returns the entries of the lock, by crate."""
    found = {}
    if os.path.isfile(LOCK):
        with open(LOCK, encoding="utf-8") as lines:
            for line in filter(str.strip, lines):
                words = tuple(line.split())
                if not line.startswith(" "):
                    name, found[words[0]] = words[0], Entry(words[-1], set())
                elif found:
                    found[name].verdicts.add(words)
    return found


def record(*trials):
    """Writes what these trials came to, each over: the entries of those whose edits are all refused, and none of the others. A crate
    without mutants loses its entry."""
    old, names = read(), with_mutants()
    entries = {name: it for name, it in old.items() if name in names}
    for trial in trials:
        entries.pop(trial.crate.name, None)
        if trial.is_over and not trial.failure and not trial.failed and not trial.told:
            entries[trial.crate.name] = Entry(sum_of(trial.crate.name), verdicts_of(trial))
    if entries != old:
        text = "".join(text_of(name, entries[name]) for name in sorted(entries))
        with open(f"{LOCK}.new", "w", encoding="utf-8") as it:
            it.write(text)
        os.replace(f"{LOCK}.new", LOCK)


def verdicts_of(trial):
    """Returns the verdicts of a trial as the lock has them."""
    return {(it.edit.name, it.function, it.goal) for it in trial.verdicts}


def text_of(name, entry):
    return f"{name} {entry.sum}\n" + "".join(f"  {' '.join(it)}\n" for it in sorted(entry.verdicts))


def staleness(name, entry):
    """Returns why a crate has to be tried, or nothing if its entry is of the files as they are, and of its edits."""
    if not entry:
        return "no line"
    if entry.sum != sum_of(name):
        return "another sum"
    edits = edits_of(name, f"{TOP}/crates/{name}")
    return "" if are_of(entry.verdicts, edits, weak.listed(name)) else "verdicts that aren't of its mutants"


def are_of(verdicts, edits, listed):
    """Returns whether verdicts name each of these edits and no other, each with a function that it changes, or with none if it is listed."""
    names = {it.name: it for it in edits}
    if any(len(it) != 3 for it in verdicts) or {it[0] for it in verdicts} != set(names):
        return False
    return all(is_of(names[edit], function, goal, listed) for edit, function, goal in verdicts)


def is_of(edit, function, goal, listed):
    if edit.name in listed or function == NOWHERE[0]:
        return edit.name in listed and (function, goal) == NOWHERE
    return not edit.why and (edit.places is None or any(function == it.label for it in edit.places))


def differences(trial, entry):
    """Returns the edits of which the lock names other functions than a trial that is over."""
    functions = lambda verdicts, edit: sorted(it[1] for it in verdicts if it[0] == edit)
    pairs = [(it, functions(entry.verdicts, it.name), functions(verdicts_of(trial), it.name)) for it in trial.edits]
    return [(it, said, found) for it, said, found in pairs if said != found]


def with_mutants():
    """Returns the crates of crates.txt that have mutants, in its order."""
    return [it for it in crates() if edit_files(it)]


def edit_files(name):
    """Returns the files of a crate's mutants."""
    return [it for it in files_in(f"{TOP}/crates/{name}/mutants") if not it.endswith(".md")]


def files_in(folder):
    """Returns the files below a folder, in the order of their paths."""
    return sorted(f"{at}/{name}" for at, _, names in os.walk(folder) for name in names)


def sum_of_files(files):
    """Returns a sum of files: of their paths from the top, and of what they hold."""
    total = hashlib.sha256()
    for file in files:
        with open(file, "rb") as it:
            total.update(repr((os.path.relpath(file, TOP), it.read())).encode())
    return total.hexdigest()


@functools.lru_cache(maxsize=None)
def own_sum(name):
    """Returns a sum of a crate's own sources, specs and proofs, and of its line of crates.txt."""
    files = [it for part in PARTS for it in files_in(f"{TOP}/crates/{name}/{part}")]
    return hashlib.sha256(repr((name, crates()[name], sum_of_files(files))).encode()).hexdigest()


@functools.lru_cache(maxsize=None)
def files_of(name):
    """Returns what the files of a crate's sources, specs and proofs hold, by their paths in its folder."""
    folder, found = f"{TOP}/crates/{name}", {}
    for file in (it for part in PARTS for it in files_in(f"{folder}/{part}")):
        with open(file, "rb") as it:
            found[os.path.relpath(file, folder)] = it.read()
    return found


@functools.lru_cache(maxsize=None)
def texts_of(name):
    """Returns the texts of a crate's sources, specs and proofs."""
    return [it.decode(errors="replace") for it in files_of(name).values()]


@functools.lru_cache(maxsize=None)
def served_sum(name):
    """Returns a sum of what a crate serves to those above it, and of its line of crates.txt."""
    texts = [text for it in crates() if it != name and name in below(it) for text in texts_of(it)]
    above = set().union(*(served.named_in(it, name) for it in texts))
    total = hashlib.sha256(repr((name, crates()[name])).encode())
    for path, text in served.Crate(files_of(name), above).served():
        total.update(repr((path, text)).encode(errors="surrogateescape"))
    return total.hexdigest()


@functools.lru_cache(maxsize=None)
def of_the_tool():
    """Returns a sum of the toolchain's logic and of the modules that decide or carry out a round."""
    modules = [f"{TOP}/tools/{it}" for it in MODULES]
    return hashlib.sha256(repr((logic(), sum_of_files(modules))).encode()).hexdigest()


def logic():
    """Returns the sum of the logic in the toolchain's version, or the whole version if it names none."""
    version = kit.version()
    return version.partition(" logic ")[2] or version


def sum_of(name):
    """Returns the sum of all that a full round of a crate reads, as the files are."""
    libraries = [served_sum(it) for it in below(name) if it != name]
    read_by_it = (of_the_tool(), own_sum(name), libraries, sum_of_files(edit_files(name)), sorted(weak.listed(name).items()))
    return hashlib.sha256(repr(read_by_it).encode()).hexdigest()


def forget():
    """Has the next sums read the files anew."""
    for it in (own_sum, files_of, texts_of, served_sum, of_the_tool):
        it.cache_clear()
