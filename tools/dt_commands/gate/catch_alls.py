"""Arms for all other calls or stops, in the sources and definitions of the product.

A match on a call, on its kind, or on why a segment or a turn stops names every case. Then whoever adds a case is asked at each place what it
means there. An arm for the others is `_` or a name alone: as the whole pattern, in `Some(..)` or `Ok(..)`, or at the place of a tuple or the
argument of a definition at which another arm names a case. `if let`, `let .. else` and `matches!` with a case leave the others out likewise.
Prints each such place that tools/catch-alls doesn't have, by its file and function, and each line there whose place is gone, and ends with 1 if
there is any.
"""
import re

from . import exceptions, sources
from dt_mutants.functions import functions_of

KINDS = ["Call", "CallKind", "MemoryUse", "Touched", "Stop", "TurnStop"]
CASE = re.compile(rf"\b(?:{'|'.join(KINDS)})::[A-Z]")
ONE_CASE = re.compile(rf"\b(?:let|matches!\() ?[^=]*{CASE.pattern}")
OTHERS = re.compile(r"_|[a-z]\w*")
LIST = "catch-alls"


def parted(text, mark):
    """Returns the parts of a text between marks outside of its brackets."""
    parts, depth = [""], 0
    for it in text:
        depth += (it in "({[") - (it in ")}]")
        if it == mark and depth == 0:
            parts.append("")
        else:
            parts[-1] += it
    return [it.strip() for it in parts if it.strip()]


def places(pattern):
    """Returns what a pattern has at each place of its tuple, or the pattern as its only one."""
    while re.fullmatch(r"(?:Some|Ok)\(.*\)", pattern):
        pattern = pattern[pattern.index("(") + 1 : -1]
    return parted(pattern[1:-1], ",") if re.fullmatch(r"\(.*\)", pattern) else [pattern]


def others(arms, is_case):
    """Returns the numbers of the arms that are for all other cases, of arms with their number and what each has at its places."""
    cases = {at for _, found in arms for at, it in enumerate(found) if is_case(it)}
    whole = {number for number, found in arms if cases and len(found) == 1 and OTHERS.fullmatch(found[0])}
    return sorted(whole | {number for number, found in arms for at, it in enumerate(found) if at in cases and OTHERS.fullmatch(it)})


def arms_of(lines, at):
    """Yields the arms of the match whose head is this line: their numbers and patterns. As `rt fmt` leaves it, each begins four columns
    behind the head."""
    indent = re.match(" *", lines[at])[0]
    begun, pattern = 0, None
    for number, line in enumerate(lines[at + 1 :], at + 2):
        if line.startswith(indent + "}"):
            return
        if re.match(rf"{indent}    [^ }}|]", line):
            begun, pattern = number, ""
        if pattern is not None:
            head, arrow, _ = line.partition("=>")
            pattern += f"{head.strip()} "
            if arrow:
                yield begun, re.sub(r" if .*", "", pattern.strip())
                pattern = None


def of_source(text):
    """Returns the numbers of the lines of a source that have an arm for others, or look for one case."""
    lines, found = sources.code_of(text).split("\n"), set()
    for at, line in enumerate(lines):
        if re.search(r"\bmatch\b", line):
            arms = [(number, places(it)) for number, pattern in arms_of(lines, at) for it in parted(pattern, "|")]
            found |= set(others(arms, CASE.search))
        if ONE_CASE.search(line):
            found.add(at + 1)
    return sorted(found)


def cases_named(text):
    """Returns what tells the cases in a definition: their names as its file imports them."""
    names = []
    for kind, braces, alias in re.findall(r"(?m)^use Rattle\.[\w.]+\.(\w+)\.TheVariants(?:\.\{([^}]*)\}| as (\w+))", text):
        if kind in KINDS:
            names += [rf"{alias}\.\w+"] if alias else [it.split()[-1] for it in braces.split(",")]
    return re.compile(rf"(?<![\w.])(?:{'|'.join(names)})\b") if names else None


def of_definitions(text):
    """Returns the numbers of a specification's clauses for others, with the names of their definitions."""
    case, clauses = cases_named(text), {}
    for number, line in enumerate(text.split("\n"), 1):
        head = re.match(r"([^\W\d][\w']*)((?: (?:[\w.']+|\(.*?\)+))+) =(?: |$)", line)
        if head:
            clauses.setdefault(head[1], []).append((number, parted(head[2], " ")))
    found = [(it, name) for name, arms in clauses.items() if case and len(arms) > 1 for it in others(arms, case.search)]
    return sorted(found)


def found(files):
    """Yields the file and the function of each such place in these files with their texts."""
    for file, text in files:
        if file.endswith(".antt"):
            yield from (f"{file} {name}" for _, name in of_definitions(text))
        else:
            functions = functions_of(file, text)
            yield from (f"{file} {next(it.label for it in functions if it.first <= line <= it.last)}" for line in of_source(text))


def check(options):
    """Checks that no match over calls or stops has an arm for all others, but for those of a list."""
    files = [*sources.of_product("src", ".rt"), *sources.of_product("specs", ".antt")]
    every = list(found(files))
    wrong = exceptions.differences(LIST, every)
    for it in wrong:
        print(it)
    print(f"{len(files)} files, {len(every)} arms for all other calls or stops, {len(wrong)} differences from tools/{LIST}")
    return 1 if wrong or not files else 0
