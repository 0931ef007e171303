"""Reads what a check printed, and says which edits of its round it refused, each by a goal of the very function that it changes."""
import collections
import re

# By which function an edit is refused, and by which goal of it; the goal is the first that the check named.
Verdict = collections.namedtuple("Verdict", "edit function goal")

NOTE = re.compile(r"note: (?:\./)?(\S+?\.rt):(\d+):\d+: it is not proved ")
FN = re.compile(r"fn (\S+): (no proof|not proved)\b(.*)")
GOALS = re.compile(r"`search` did not prove (`[^`]+`(?:, `[^`]+`)*)")
# A refusal in a function's own proof files; the folder is the function's path.
REFUSAL = re.compile(r"(?:\./)?proofs/(\S+)/\w+\.antt:\d+:\d+: error: (.*)")
# What such a refusal says if the file only names what the edit took away: it tells little, and may be another edit's doing.
NAMES = re.compile(r"has no field|is not in scope|has no `|was not admitted|is no name")
# Where the front end refuses a text, or antt can't read it.
POSITION = re.compile(r"(?:\./)?((?:src|specs|proofs)/\S+?\.(?:rt|antt)):(\d+):\d+")
COMPILES_NOT = re.compile(r"(?m)^error\[[\w-]+\]|\berror\[[\w-]+\]")


class Unproved:
    """A function that a check says isn't proved: its path, the lines of its notes, and its own goal that wasn't proved, if there is one."""

    def __init__(self, path, notes, goal):
        self.path, self.notes, self.goal = path, notes, goal


def unproved_in(said):
    """Returns the functions that the output names as not proved. A function's notes come right before its own line."""
    found, notes, refused = [], [], {}
    for line in said.split("\n"):
        note, fn, refusal = NOTE.match(line), FN.match(line), REFUSAL.match(line)
        if note:
            notes.append((note[1], int(note[2])))
        elif refusal and not NAMES.search(refusal[2]):
            refused.setdefault(refusal[1].replace("/", "::"), first_name(refusal[2]))
        elif fn:
            path, goals = fn[1].partition("::")[2], GOALS.search(fn[3])
            goal = first_name(goals[1]) if goals else refused.get(path) if fn[2] == "not proved" else None
            found.append(Unproved(path, notes, goal))
            notes = []
        elif line.startswith("fn "):
            notes = []
    return found


def first_name(text):
    """Returns the first name that stands in backquotes, in one word."""
    found = re.search(r"`([^`]+)`", text)
    return "_".join(found[1].split()) if found else "a_proof_file"


def is_of(path, function):
    """Returns whether a path of a check's output is this function's, or that of a closure in it."""
    tail = [*([function.owner] if function.owner else []), function.name]
    steps = path.split("::")
    if "fn" in steps:
        return steps[steps.index("fn") + 1 :][: len(tail)] == tail
    if steps[-len(tail) :] != tail:
        return False
    # (a method is in the module of its type, whichever file its impl is in)
    return bool(function.owner) or steps[:-1] == module_of(function.file)


def module_of(file):
    steps = file[len("src/") : -len(".rt")].split("/")
    return steps[:-1] if steps[-1] in ("lib", "main", "mod") else steps


def goal_of(function, found):
    """Returns the goal by which one of these, which must be the function, is refused, or None. If the crate has another function of its
    label, a note must be at its lines."""
    is_inside = lambda it: any(file == function.file and function.first <= line <= function.last for file, line in it.notes)
    goals = (it.goal for it in found if it.goal and is_of(it.path, function) and (function.is_unique or is_inside(it)))
    return next(goals, None)


def has_verdict(said, status):
    """Returns whether a check came to its end and says that the crate isn't proved."""
    return status == 1 and said.rstrip("\n").rpartition("\n")[2].startswith("logic=not-proved")


def refused_by(edits, said, status):
    """Returns the verdicts on those of a round's edits that the check refuses by a goal of a function that they change."""
    if not has_verdict(said, status):
        return []
    found = unproved_in(said)
    goals = [(it, place, goal_of(place, found)) for it in edits for place in it.places or ()]
    return [Verdict(it, place.label, goal) for it, place, goal in goals if goal]


def refused_alone(edit, said):
    """Returns the verdicts on an edit that was refused alone: by the functions that it changes, or, if it changes something else than
    bodies, by the first function that has a goal which wasn't proved."""
    if edit.places:
        return refused_by([edit], said, 1)
    found = sorted((it.path, it.goal) for it in unproved_in(said) if it.goal)
    return [Verdict(edit, *it) for it in found[:1]]


def blamed(edits, said):
    """Returns those of a round's edits at whose function the output has an error of a text that can't be read or compiled."""
    lines = said.split("\n")
    near = [text for at, line in enumerate(lines) if "error" in line for text in lines[at : at + 3]]
    places = [(it[1], int(it[2])) for text in near for it in POSITION.finditer(text)]
    hits = lambda place: any(file == place.file and place.first <= line <= place.last for file, line in places)
    return [it for it in edits if it.places and any(hits(place) for place in it.places)]
