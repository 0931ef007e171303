"""The command diff: what differs between two turns of a run, and between two runs."""
import re
import shlex

import gdb

from session import Words, fail, of_run, of_symbol, place_and_type, places, session, symbol_at, typed

# How many rows it prints, and how many bytes of one.
MOST_ROWS, SHOWN, PAGE = 40, 16, 4096
# Types whose values are shown whole.
PLAIN = (gdb.TYPE_CODE_INT, gdb.TYPE_CODE_PTR, gdb.TYPE_CODE_ENUM, gdb.TYPE_CODE_BOOL, gdb.TYPE_CODE_FLT, gdb.TYPE_CODE_CHAR)
# How names of the C library's own data begin.
OF_LIBRARY = "dthreads_"


def spans(before, behind, address):
    """Yields the runs of bytes in which two memories differ: the address, and the bytes of both."""
    first = None
    for at in range(len(before) + 1):
        differs = at < len(before) and before[at] != behind[at]
        if differs and first is None:
            first = at
        elif not differs and first is not None:
            yield address + first, before[first:at], behind[first:at]
            first = None


def pages_of(it):
    """Returns the pages that the run changes, by its report."""
    return [int(address, 16) for address in re.findall(r"^page=([0-9a-f]+) ", of_run(it, it.words, "--report"), re.M)]


def memories(engine, turn, ranges):
    """Returns the shared memory of these ranges as a turn begins, or as the run ends."""
    if not engine.go(turn):
        engine.go_to_end()
        if turn > engine.where().turn + 1:
            fail(f"the run has no turn {turn}")
    return [engine.shared(address, length) for address, length in ranges]


def variable_at(address):
    """Returns the name, the address and the type of the variable that has a byte, or None."""
    found = symbol_at(address)
    symbol = (gdb.lookup_global_symbol(found[0]) or gdb.lookup_static_symbol(found[0])) if found else None
    return (found[0], address - found[1], symbol.type) if symbol and symbol.is_variable else None


def is_plain(kind):
    return kind.strip_typedefs().code in PLAIN


def element_at(name, kind, offset):
    """Returns the plain part of a variable that has a byte: its name, its offset and its type, or None."""
    start = 0
    while not is_plain(kind):
        plain = kind.strip_typedefs()
        if plain.code == gdb.TYPE_CODE_ARRAY:
            kind = plain.target()
            at = (offset - start) // max(1, kind.sizeof)
            name, start = f"{name}[{at}]", start + at * kind.sizeof
        elif plain.code == gdb.TYPE_CODE_STRUCT:
            members = [it for it in plain.fields() if hasattr(it, "bitpos") and not it.bitsize]
            inside = [it for it in members if 0 <= offset - start - it.bitpos // 8 < it.type.sizeof]
            if not inside:
                return None
            name, start, kind = f"{name}.{inside[0].name}", start + inside[0].bitpos // 8, inside[0].type
        else:
            return None
    return name, start, kind


def part_at(at, before, address):
    """Returns the plain part of a variable that has a byte: its name, its address and its type, None if it isn't known or not in memory."""
    found = variable_at(at)
    part = element_at(found[0], found[2], at - found[1]) if found else None
    if not part:
        return None
    first = found[1] + part[1]
    return (part[0], first, part[2]) if address <= first and first + part[2].sizeof <= address + len(before) else None


def rows_of(before, behind, address):
    """Yields what differs in two memories: a variable's name with both values, or the bytes behind a symbol. Before each is its rank:
    variables of the program, then others, then the C library's own."""
    shown = set()
    for place, old, new in spans(before, behind, address):
        at, end = place, place + len(old)
        while at < end:
            part = part_at(at, before, address)
            last = part[1] + part[2].sizeof if part else end
            if part and part[1] not in shown:
                one, two = (typed(part[2], it[part[1] - address : last - address]) for it in (before, behind))
                yield 0, f"{part[0]}: {one} -> {two}"
                shown.add(part[1])
            elif not part:
                name, one, two = of_symbol(at), old[at - place :][:SHOWN].hex(), new[at - place :][:SHOWN].hex()
                yield 2 if name.startswith(OF_LIBRARY) else 1, f"{name}, {end - at} bytes: {one} -> {two}"
            at = last


def joined(pages):
    """Returns the ranges of these pages, each with its length."""
    found = []
    for it in sorted(pages):
        if found and found[-1][0] + found[-1][1] == it:
            found[-1] = (found[-1][0], found[-1][1] + PAGE)
        else:
            found.append((it, PAGE))
    return found


class Diff(Words):
    """Tell what differs: diff A B [EXPRESSION], or diff --shuffle N, diff --quantum N.
diff A B tells which bytes of the shared memory differ between the beginnings of turns A and B, by variable; with EXPRESSION those
of its value alone. With --shuffle or --quantum it puts the run with that option beside this
one, and tells the first turn that differs."""

    def do(self, text):
        if text.strip().startswith("--"):
            return runs_apart(shlex.split(text))
        found = re.fullmatch(r"\s*(\d+)\s+(\d+)(?:\s+(\S.*))?", text)
        if not found:
            fail("diff A B [EXPRESSION], or diff --shuffle N: A and B are turns")
        turns_apart(int(found[1]), int(found[2]), found[3])


def turns_apart(first, last, text):
    it = session()
    if text:
        address, length, _ = place_and_type(text)
        ranges = [(address, length)]
    else:
        ranges = joined(pages_of(it))
    engine = it.engine()
    both = [memories(engine, turn, ranges) for turn in (first, last)]
    rows = [row for (address, length), *two in zip(ranges, *both) for row in rows_of(*(it or bytes(length) for it in two), address)]
    tell(sorted(rows, key=lambda it: it[0]), bool(text))
    if not rows:
        print(f"the shared memory is the same at turns {first} and {last}")


def tell(rows, has_all):
    """Prints rows: those of the C library's own data only if all are wanted."""
    own = [it for it in rows if it[0] < 2 or has_all]
    for _, row in own[:MOST_ROWS]:
        print(row)
    if len(own) > MOST_ROWS:
        print(f"and {len(own) - MOST_ROWS} more; with a variable behind the turns it is shown alone")
    if len(own) < len(rows):
        print(f"and {len(rows) - len(own)} places in the C library's own data")


def first_other(one, two):
    """Returns the first place in which two lists differ."""
    return next((at for at, (it, other) in enumerate(zip(one, two)) if it != other), min(len(one), len(two)))


def runs_apart(words):
    """Puts this run and the one with other options side by side, to the first turn that differs."""
    if len(words) % 2 or any(it not in ("--shuffle", "--quantum", "--bound") for it in words[::2]):
        fail("diff --shuffle N, or --quantum N: the options of the other run")
    it = session()
    other = it.with_options(zip(words[::2], words[1::2]))
    traces = [of_run(it, words_of, "--trace").splitlines() for words_of in (it.words, other)]
    does = [[it.partition(" changed=")[0] for it in trace] for trace in traces]
    at = first_other(*does)
    counts = first_other(*traces)
    if counts < at:
        print(f"from turn {counts + 1} on turns have other numbers of instructions or of changed bytes")
    if at == max(map(len, traces)):
        print(f"all {at} turns of the two runs do the same")
        return
    print(f"turn {at + 1} is the first that differs:")
    wide = max(len("this run"), len(" ".join(words))) + 1
    for name, trace, words_of in (("this run", traces[0], it.words), (" ".join(words), traces[1], other)):
        print(f"  {name + ':':{wide}} {of_turn(words_of, at + 1, trace)}")


def of_turn(words, number, trace):
    """Returns in words what a turn is, and where its thread is behind it."""
    if number > len(trace):
        return "it has ended"
    _, thread, text = trace[number - 1].split(" ", 2)
    wanted = f"{number + 1}:0:{thread}"
    place = dict(places(words, [wanted])).get(wanted)
    return f"guest {thread}: {text.partition(' changed=')[0]}{f', {place}' if place else ''}"
