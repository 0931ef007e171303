"""The lists of `dthreads run --check`: what each line says of which accesses."""
import re
from collections import namedtuple

# One end of a finding: what it does, the thread, the turn and how many of its instructions come before it, or None if the list doesn't say
# that, and its pc and function, or None.
Site = namedtuple("Site", "does thread turn instruction pc function")
# A finding: its kind, or that of a misuse, the objects' names, the racing bytes, or None, and its sites.
Finding = namedtuple("Finding", "kind objects address length sites line")
# What a site may do: an access, or what is said of another thread.
DOES = re.compile(r"(?:atomic-)?(?:load|store)|free|(?:freed|held)-by")
KINDS = ("race", "freed", "order", "misuse")
TIME = re.compile(r"(\d+)(?:\+(\d+))?")
# What guest/dthreads-lines adds; a file's name may have blanks.
LINE = re.compile(r" at=\S.*?:\d+(?= |$)")


def sites_of(words):
    """Returns the sites of a line, by its words: `thread=` begins one, and the word before it says what it does."""
    sites, functions = [], [it[3:] for it in words if it.startswith("in=")]
    for before, word in zip([""] + words, words):
        key, _, value = word.partition("=")
        if key == "thread":
            sites.append({"does": before if DOES.fullmatch(before) else "", "thread": value})
        elif key in ("turn", "since") and sites and TIME.fullmatch(value):
            turn, instruction = TIME.fullmatch(value).groups()
            sites[-1].update(turn=int(turn), instruction=None if instruction is None else int(instruction))
        elif key == "pc" and sites:
            sites[-1]["pc"] = int(value, 16)
    for it, function in zip(sites, functions):
        it["function"] = function
    return [Site(it["does"], it["thread"], it["turn"], it["instruction"], it.get("pc"), it.get("function")) for it in sites if "turn" in it]


def finding_of(line):
    """Returns what a line of a list tells, None if it is no finding with a position."""
    kind, *words = LINE.sub("", line).split()
    sites = sites_of(words)
    if kind not in KINDS or not sites:
        return None
    told = dict(it.split("=", 1) for it in words if "=" in it)
    objects = [told["object"]] if "object" in told else [it for it in words[:2] if kind == "order" and "=" not in it]
    address = int(told["address"], 16) if "address" in told else None
    return Finding(words[0] if kind == "misuse" else kind, objects, address, int(told.get("bytes", 0)), sites, line)


def findings_of(text):
    """Returns the findings of a list, and the lines that are none."""
    lines = [it for it in text.splitlines() if it.strip()]
    found = [(line, finding_of(line)) for line in lines]
    return [it for _, it in found if it], [line for line, it in found if not it]


def in_time(finding):
    """Returns the sites of a finding in the order of the run."""
    return sorted(finding.sites, key=lambda it: (it.turn, it.instruction or 0))
