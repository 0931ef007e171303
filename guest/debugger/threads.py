"""The commands tls and ends, and the names of threads."""
import functools
import re
import struct

import gdb

from session import Words, fail, places, read, session

# The record of a thread in the C library: where its number and its name are.
RECORDS, OF_SIZE = "dthreads_own_threads", "dthreads_thread_size"
OF_CREATED, OF_NAME = "dthreads_thread_created", "dthreads_thread_name"
NAME_BYTES, UNNAMED = 16, "program"
# Of ELF: the kinds of a table of symbols and of a thread-local symbol, and the sizes of their entries.
SYMBOLS, THREAD_LOCAL, SECTION_BYTES, SYMBOL_BYTES = 2, 6, 40, 16


class Ends(Words):
    """Tell how the run ends, and where each thread is then: ends.
Another gdb goes to the end, so this one stays where it is."""

    def do(self, text):
        it = session()
        engine = it.engine()
        said = re.findall(r"^dthreads: (.*)$", engine.go_to_end(), re.M)
        print(*said[-1:], *(place for _, place in places(it.words, ["end"])), sep="\n")


def offsets():
    """Returns the names of thread-local symbols, each with its offset and its bytes, from the program's file."""
    with open(gdb.current_progspace().filename, "rb") as file:
        image = file.read()
    table, count = struct.unpack_from("<I", image, 32)[0], struct.unpack_from("<H", image, 48)[0]
    sections = [struct.unpack_from("<10I", image, table + at * SECTION_BYTES) for at in range(count)]
    for _, kind, _, _, place, length, link, *_ in sections:
        for at in range(place, place + length, SYMBOL_BYTES) if kind == SYMBOLS else ():
            name, value, size, what = struct.unpack_from("<IIIB", image, at)
            if what & 15 == THREAD_LOCAL:
                start = sections[link][4] + name
                yield image[start : image.index(b"\0", start)].decode(), value, size


def offset_of(name):
    """Returns the offset and the bytes of a thread-local variable; one of a function has a number behind its name."""
    found = [(value, size) for it, value, size in offsets() if re.fullmatch(re.escape(name) + r"(\.\d+)?", it)]
    if not found:
        fail(f"{name} is no thread-local variable; print shows it")
    if len(set(found)) > 1:
        fail(f"{len(found)} thread-local variables have the name {name}")
    return found[0]


def type_of(name, size):
    """Returns the type of a variable, or that of an integer or of bytes of its size if the program doesn't say."""
    symbol = gdb.lookup_symbol(name)[0] or gdb.lookup_global_symbol(name) or gdb.lookup_static_symbol(name)
    if symbol:
        return symbol.type
    whole = {1: "char", 2: "short", 4: "int", 8: "long long"}.get(size)
    return gdb.lookup_type(whole) if whole else gdb.lookup_type("char").array(size - 1)


class Tls(Words):
    """Print a thread-local variable of the selected thread: tls VARIABLE, with members and elements behind its name."""

    def do(self, text):
        name = re.match(r"\s*([A-Za-z_$][\w$]*)", text)
        if not name:
            fail("tls VARIABLE")
        offset, size = offset_of(name[1])
        block = int(gdb.selected_frame().read_register("tp")) % 2**32
        if block == 0:
            fail("the thread has no thread-local block yet")
        place = (block + offset) % 2**32
        gdb.set_convenience_variable("_tls", gdb.Value(place).cast(type_of(name[1], size).pointer()))
        gdb.execute(f"print (*$_tls){text[name.end():]}")


def value_of(symbol):
    """Returns the address that a symbol has, None if the program has none of this name."""
    try:
        return int(gdb.parse_and_eval(f"(unsigned int) &{symbol}"))
    except gdb.error:
        return None


@functools.lru_cache(maxsize=1)
def places_of(file):
    """Returns where the program in a file has the records of threads, and where a record has what is shown."""
    return [value_of(it) for it in (RECORDS, OF_CREATED, OF_NAME, OF_SIZE)]


def name_of(guest, record, created, name):
    """Returns the name of a thread of the C library: its place among those that pthread_create made, and what pthread_setname_np gave it."""
    number = int.from_bytes(record[created : created + 4], "little")
    given = record[name : name + NAME_BYTES].partition(b"\0")[0].decode(errors="replace")
    made = f", created {number}" if number not in (0, guest) else ""
    return f"guest {guest}{made}{f' {given}' if given not in ('', UNNAMED) else ''}"


# Whether gdb speaks to a program, which has no prompt.
IS_MACHINE = re.search(r"\0--?i(nterpreter)?[=\0]mi", read("/proc/self/cmdline")) is not None
# The stops whose threads have no names yet.
UNNAMED_STOPS = []


def note_stop(stop):
    """Names the threads of a stop at the next prompt: a script that steps pays nothing for it."""
    UNNAMED_STOPS[:] = [stop]
    if IS_MACHINE:
        name_threads()


def name_threads():
    """Gives the threads of the C library their names if the program has stopped."""
    if not UNNAMED_STOPS:
        return
    UNNAMED_STOPS.clear()
    records, created, name, size = places_of(gdb.current_progspace().filename)
    if None in (records, created, name, size) or gdb.selected_thread() is None:
        return
    threads = gdb.selected_inferior().threads()
    try:
        data = bytes(gdb.selected_inferior().read_memory(records, size * max(it.ptid[1] for it in threads)))
    except (gdb.error, ValueError):
        return
    for thread in threads:
        guest = thread.ptid[1] - 1
        told = name_of(guest, data[guest * size :], created, name)
        if thread.name != told:
            thread.name = told


# The commands that go back. gdb names no thread for a step back, and `thread apply` asks for other threads than the selected one.
BACK = ["reverse-step", "reverse-next", "reverse-stepi", "reverse-continue", "reverse-finish"]


def ask_for_selected():
    """Asks for the selected thread, so that it is the one that a step back means."""
    thread, connection = gdb.selected_thread(), gdb.selected_inferior().connection
    if thread is not None and isinstance(connection, gdb.RemoteTargetConnection):
        connection.send_packet(f"T{thread.ptid[1]:x}")


def hook_back():
    """Has each command that goes back ask for the selected thread first."""
    for name in BACK:
        gdb.execute(f"define hook-{name}\npython import threads; threads.ask_for_selected()\nend")
