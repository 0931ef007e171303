"""Which crates the gate tries though nothing changed, so that no wrong line of mutants.lock lives long: a tenth of them at each commit."""
import hashlib
import subprocess

from dt_commands.repository import TOP
from dt_mutants import lock

GROUPS = 10


def groups(costs):
    """Returns the names in ten groups of about equal cost."""
    found = [[] for _ in range(GROUPS)]
    for name in sorted(costs, key=lambda it: (-costs[it], it)):
        min(found, key=lambda group: sum(costs[it] for it in group)).append(name)
    return found


def cost(name):
    """Returns about what a trial of a crate costs: its mutants times its lines, as a power of two, so that few changes move a crate to
    another group."""
    lines = sum(text.count(b"\n") for path, text in lock.files_of(name).items() if path.startswith("src/"))
    return 1 << (len(lock.edit_files(name)) * lines).bit_length()


def commit_number():
    """Returns how many commits lead to the one that is checked out, or None outside a whole checkout."""
    said = git("rev-parse", "--show-prefix", "--is-shallow-repository")
    return int(git("rev-list", "--count", "HEAD") or 0) or None if said == "\nfalse\n" else None


def git(*words):
    """Returns what git prints, or nothing if it fails or isn't there."""
    try:
        return subprocess.run(["git", *words], cwd=TOP, stdout=subprocess.PIPE, stderr=subprocess.DEVNULL, universal_newlines=True).stdout
    except OSError:
        return ""


def drawn(names):
    """Returns the crates that the gate draws of these, and by what. Ten commits in a row draw each of them."""
    number, by = commit_number(), "commit"
    if number is None:
        number, by = int(hashlib.sha256("".join(map(lock.sum_of, names)).encode()).hexdigest(), 16) % GROUPS, "the sum of the tree, without a whole git history,"
    group = groups({it: cost(it) for it in names})[number % GROUPS]
    return group, f"by {by} {number}: group {number % GROUPS} of {GROUPS}"
