"""The commands races and race: the findings of a run, and the way to their accesses."""
import re
import shlex

import gdb

from engine import PC, access_of
from findings import findings_of, in_time
from session import Words, fail, of_run, place_of, present, read, selected_guest, session, time_of


def findings(path=None):
    """Returns the findings of the run: those of a file, those that were listed last, or those that the program finds."""
    it = session()
    if path or it.findings is None:
        it.findings, it.others = findings_of(read(path) if path else of_run(it, it.words, "--check"))
    return it.findings


def pc_of_function(name):
    """Returns the address of `function+offset`, None if gdb doesn't know the function."""
    name, _, distance = (name or "").partition("<")[0].rpartition("+")
    try:
        return int(gdb.parse_and_eval(f"(unsigned int) &'{name}'")) + int(distance)
    except (gdb.error, ValueError):
        return None


def place_of_site(site):
    pc = site.pc if site.pc is not None else pc_of_function(site.function)
    return place_of(pc) if pc is not None else site.function


def object_of(finding):
    if finding.objects:
        return " and ".join(re.sub(r"\+0$", "", it) for it in finding.objects)
    return f"{finding.address:#010x}" if finding.address is not None else "an unknown object"


def does(site):
    """Returns in words what a site does."""
    return f"{site.does.replace('-by', '')} by thread {site.thread}" if site.does else f"thread {site.thread}"


def of_site(site):
    place = place_of_site(site)
    return f"{does(site)}, {time_of(site.turn, site.instruction)}{f', {place}' if place else ''}"


class Races(Words):
    """List the findings of this run: races [FILE].
The program makes the run once more, with the same options, and finds its races and what else it looks for. With FILE the list is
read from there, as `dthreads run` or guest/dthreads-lines wrote it. `race N` goes to a finding."""

    def do(self, text):
        every = findings(*shlex.split(text)[:1])
        for number, it in enumerate(every, 1):
            print(f"{number}  {it.kind} {object_of(it)}: {'; '.join(map(of_site, it.sites))}")
        for line in session().others:
            print(line)
        if not every:
            print("no findings")


class Race(Words):
    """Go to an access of a finding: race N [first].
N is the finding's number in `races`. Without a further word it is the access that comes later in the run, with `first` the earlier
one. gdb stops before its instruction, in the thread that executes it."""

    def do(self, text):
        words = text.split()
        if not words or not words[0].isdigit() or words[1:] not in ([], ["first"]):
            fail("race N [first]: N is a number of `races`")
        every = findings()
        if not 1 <= int(words[0]) <= len(every):
            fail(f"there is no finding {words[0]}: `races` lists {len(every)}")
        finding = every[int(words[0]) - 1]
        site = in_time(finding)[0 if words[1:] else -1]
        instruction = site.instruction if site.instruction is not None else instruction_of(finding, site)
        print(f"{finding.kind} {object_of(finding)}: {does(site)}, before its instruction")
        gdb.execute(f"turn {site.turn} {instruction}")
        if present()[:2] != (site.turn, instruction):
            fail("the list is of another run")
        show(finding)


def instruction_of(finding, site):
    """Returns how many of its turn's instructions come before an access that a list names by its pc alone."""
    if site.pc is None or finding.address is None:
        fail("the list says in which turn this is, but not where")
    engine = session().engine()
    engine.go(site.turn)
    engine.ask(f"Z0,{site.pc:x},4")
    try:
        while True:
            where = engine.where()
            if where.turn != site.turn or where.is_end:
                fail(f"turn {site.turn} has no such access: the list is of another run")
            if touches(engine, where.thread, site.pc, finding):
                return where.instructions
            # (a breakpoint at the first position is looked at, so a step over it comes first)
            engine.resume(f"vCont;s:{where.thread + 1:x};c")
            if engine.registers(engine.where().thread)[PC] != site.pc:
                engine.resume("vCont;c")
    finally:
        engine.ask(f"z0,{site.pc:x},4")


def touches(engine, thread, pc, finding):
    """Returns whether the next step is an access of the finding's bytes by the instruction at a pc."""
    registers = engine.registers(thread)
    it = access_of(engine.instruction(thread, pc), registers) if registers[PC] == pc else None
    return it is not None and finding.address - it.length < it.address < finding.address + finding.length


def show(finding):
    """Prints what the selected thread sees of the finding's object, and what it is about to store."""
    value = of_variable(re.sub(r"\+\d+$", "", finding.objects[0])) if finding.address is not None and finding.objects else None
    if value is None and finding.address is not None:
        value = f"{finding.address:#010x}: {of_memory(finding.address, finding.length)}"
    if value is not None:
        print(f"guest {selected_guest()} sees {value}{stored_next()}")
    print(caller(), end="")


def caller():
    """Returns who called the selected thread's function, if that has no lines, as those of the C library."""
    frame, calls = gdb.newest_frame(), None
    while frame is not None and not (frame.find_sal().symtab and frame.find_sal().line):
        frame, calls = frame.older(), frame.name()
    if frame is None or calls is None:
        return ""
    place = frame.find_sal()
    return f"in {frame.name()} at {place.symtab.filename}:{place.line}, which calls {calls}\n"


def of_variable(name):
    try:
        return f"{name} = {gdb.parse_and_eval(name).format_string(max_elements=8)}"
    except gdb.error:
        return None


def of_memory(address, length):
    try:
        return bytes(gdb.selected_inferior().read_memory(address, length)).hex(" ")
    except gdb.error:
        return "not mapped"


def stored_next():
    """Returns in words what the selected thread's next instruction stores, nothing if it doesn't."""
    frame = gdb.newest_frame()
    registers = [0] + [int(frame.read_register(f"x{it}")) % 2**32 for it in range(1, 32)]
    it = access_of(int.from_bytes(bytes(gdb.selected_inferior().read_memory(frame.pc(), 4)), "little"), registers)
    if not it or it.kind != "store":
        return ""
    value = registers[it.source] % 2 ** (8 * it.length)
    return f"; it is about to store {value}{f' ({value:#x})' if value > 9 else ''}"
