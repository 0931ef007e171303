"""For a gdb that another one starts: prints where guest threads are at positions of the run, each as `place: POSITION WORDS`.

DTHREADS_PLACES has the positions: `turn:instructions:thread`, or `end` for each thread at the run's end. A position that the run doesn't
have is its end. A thread that waits in a call is told with the object of the call: a mutex, a condition, ..
"""
import os
import re

import gdb

STATE = re.compile(r"guest (\d+) \(gdb thread id \d+\): (.*); shows .*")
# Where a thread of the C library waits for the next start routine.
PARKED = "dthreads_thread_park"
STEP = re.compile(r"; step (\d+)")
# Calls that wait for the object of their first argument.
WAITS = re.compile(r"(?:pthread_(?:mutex|cond|rwlock|barrier|spin)|mtx|cnd|sem)_\w*(?:lock|wait)\w*")


def thread_of(guest):
    """Selects the thread of a guest thread. Returns whether there is one."""
    thread = next((it for it in gdb.selected_inferior().threads() if it.ptid[1] == guest + 1), None)
    if thread is not None:
        thread.switch()
    return thread is not None


def named(address):
    """Returns the variable at an address, or the address."""
    found = re.match(r"(\S+)(?: \+ (\d+))? in section", gdb.execute(f"info symbol {address:#x}", to_string=True))
    return f"{found[1]}{f'+{found[2]}' if found[2] else ''}" if found else f"{address:#010x}"


def object_of(call, guest):
    """Goes back to where a guest thread began the call that it waits in, and to here again. Returns the call with its object."""
    if not WAITS.fullmatch(call):
        return call
    step = STEP.search(gdb.execute("monitor where", to_string=True))[1]
    place = gdb.Breakpoint(f"*{call}", internal=True, temporary=True)
    place.thread = gdb.selected_thread().num
    gdb.execute("reverse-continue", to_string=True)
    is_there = gdb.selected_thread().ptid[1] == guest + 1 and gdb.newest_frame().name() == call
    argument = named(int(gdb.newest_frame().read_register("a0")) % 2**32) if is_there else None
    if place.is_valid():
        place.delete()
    gdb.execute(f"monitor go {step}", to_string=True)
    gdb.execute("reverse-stepi", to_string=True)
    return f"{call}({argument})" if argument else call


def in_program(guest, is_waiting):
    """Returns where the innermost frame of a thread in code with lines is, and what it calls."""
    if not thread_of(guest):
        return ""
    frame, calls = gdb.newest_frame(), None
    while frame is not None and not (frame.find_sal().symtab and frame.find_sal().line):
        calls, frame = frame.name(), frame.older()
    if frame is None:
        return "ended, parked by the C library" if calls == PARKED else f"in {gdb.newest_frame().name() or hex(gdb.newest_frame().pc())}"
    place, name = frame.find_sal(), frame.name()
    where = f"in {name} at {place.symtab.filename}:{place.line}"
    if not calls:
        return where
    return f"{where}, which calls {object_of(calls, guest) if is_waiting else calls}"


def states():
    """Returns what each guest thread does."""
    found = map(STATE.fullmatch, gdb.execute("monitor threads", to_string=True).splitlines())
    return {int(it[1]): it[2] for it in found if it}


def is_wait(state):
    return state.startswith(("waits", "woken"))


def go_to_end():
    """Goes to the run's end, unless it is here: to go on there ends the run."""
    if "the run's end" not in gdb.execute("monitor where", to_string=True):
        gdb.execute("continue", to_string=True)


def go(turn, instructions):
    """Goes to a position, or to the run's end."""
    if "no such position" in gdb.execute(f"monitor turn {turn} {instructions}", to_string=True):
        go_to_end()
    else:
        gdb.execute("reverse-stepi", to_string=True)


def tell_end():
    go_to_end()
    for guest, state in states().items():
        where = in_program(guest, is_wait(state)) if state != "done" else ""
        told = where if where.startswith("ended") else f"{state}{f'; {where}' if where else ''}"
        print(f"\nplace: end guest {guest}: {told}")


for it in os.environ["DTHREADS_PLACES"].split():
    if it == "end":
        tell_end()
    else:
        at, after, whose = map(int, it.split(":"))
        go(at, after)
        print(f"\nplace: {it} {in_program(whose, is_wait(states().get(whose, '')))}")
