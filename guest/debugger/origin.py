"""The command origin: who wrote each byte of a value as a thread sees it."""
import re

import gdb

from origins import Origins
from session import Words, fail, line_of, place_and_type, place_of, places, present, selected_guest, session, time_of, typed

# How many bytes of a value it takes.
MOST_BYTES = 64
AS_BEGUN = "nobody so far: as the program began"


def of_store(store):
    """Returns a store in words; that of a function without lines with its caller."""
    what, at = "read of the input" if store.call else "store", store.position
    caller = "" if line_of(store.pc) else caller_of(store)
    return f"{time_of(at.turn, at.instructions)}, guest {at.thread}: {what} in {place_of(store.pc)}{caller}"


def caller_of(store):
    """Returns in words who called a function without lines that stores."""
    wanted = f"{store.position.turn}:{store.position.instructions}:{store.position.thread}"
    found = re.search(r"in (\S+ at \S.*:\d+), which calls", dict(places(session().words, [wanted])).get(wanted, ""))
    return f", called in {found[1]}" if found else ""


def span(first, last, length):
    """Returns in words which bytes of a value these are."""
    if (first, last) == (0, length - 1):
        return "written by"
    return f"byte {first} by" if first == last else f"bytes {first} to {last} by"


def of_write(it, write, at):
    store = it.store_of(write, at)
    return of_store(store) if store else f"turn {write.turn}, guest {write.thread}"


def told_of(it, at):
    """Returns in words where a byte comes from, line by line."""
    store, write = it.stores.get(at), it.write_of(at)
    first = of_store(store) if store else f"turn {write.turn}, guest {write.thread}" if write else AS_BEGUN
    lines = ["".join([first, *(f"; {time_of(*same.position[:2])} stored the same" for same in it.silent(at, write))])]
    over, newer = it.overwritten(at, write), it.newer(at)
    if over:
        lines.append(f"this was merged over {of_write(it, over, at)}")
    if newer:
        lines.append(f"{'its commit will overwrite' if store and not write else 'not seen by this thread:'} {of_write(it, newer, at)}")
    return lines


class Origin(Words):
    """Tell who wrote a value as the selected thread sees it: origin EXPRESSION.
For each byte it names the last store on the way to this view: turn and instruction, thread, function and line. It also tells of
another thread's store that was overwritten by a merge, or that this thread doesn't see yet. `turn N K` goes there."""

    def do(self, text):
        if not text.strip():
            fail("origin EXPRESSION")
        thread = selected_guest()
        address, length, kind = place_and_type(text)
        if not 0 < length <= MOST_BYTES:
            fail(f"{text} has {length} bytes: origin takes 1 to {MOST_BYTES}; name a member or an element")
        it = Origins(session().engine(), present(), thread, address, length)
        data = bytes(gdb.selected_inferior().read_memory(address, length))
        print(f"{text.strip()} = {typed(kind, data)} for guest {thread}, {length} byte{'s' * (length > 1)} at {address:#010x}")
        every = [told_of(it, at) for at in range(length)]
        first = 0
        for at in range(1, length + 1):
            if at == length or every[at] != every[first]:
                print(f"  {span(first, at - 1, length)} {every[first][0]}", *(f"    {line}" for line in every[first][1:]), sep="\n")
                first = at
