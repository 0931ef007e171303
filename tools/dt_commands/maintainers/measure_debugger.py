"""Measures the debugger: what a run in it takes, as multiples of the plain run's time, and the memory that it needs.

It speaks gdb's remote protocol with `dthreads debug`, so that gdb's own time isn't in it. DTHREADS names the program, or else
./dthreads. The guests are of tools/guests/debugged.c. A number is the least of three rounds.
"""
import math
import re
import subprocess
import tempfile
import time

from dt_commands import guest_runs
from dt_commands.gdb_packets import Debugged, framed
from dt_commands.measuring import least, seconds_of, taken
from dt_commands.progress import Progress
from dt_commands.repository import TOP

SOURCE = f"{TOP}/tools/guests/debugged.c"
ROUNDS = 3
# Four threads that synchronise every 1,800 instructions, also with much code beside them.
SHORT = ["-DTURNS", "-DSECTIONS=1000"]
GUESTS = {
    "long": [], "turns": ["-DTURNS"], "short": SHORT, "large": [*SHORT, "-DLARGE"], "rounds": ["-DROUNDS=100000"],
    "endless": ["-DROUNDS=400000000"], "line": ["-g", "-DLINE=30000"],
}
# How many breakpoints are set that are never hit.
POINTS = [1, 2, 5]
# A condition of gdb's that a0 is never: 2^32 - 1.
NEVER_MET = "Xa,26000a24ffffffff1327"
INTERRUPT = b"\x03"
# How many instructions the first guest executes before the position in whose neighbourhood steps back are made.
MIDDLE = 50_000_000


def plain(elf):
    return [guest_runs.program(), "run", elf]


def symbols(elf):
    """Returns the addresses of a program's symbols."""
    said = subprocess.run(["riscv64-unknown-elf-nm", elf], stdout=subprocess.PIPE, check=True, text=True).stdout
    return {name: int(address, 16) for address, _, name in re.findall(r"(?m)^([0-9a-f]+) (\w) (\S+)$", said)}


def with_points(elf, names):
    """Returns the seconds of continue with a breakpoint that is never hit, of continue with a watched word, and of reverse-continue
    from the end to a breakpoint at the start."""
    with Debugged(elf) as debugged:
        debugged.ask(f"Z0,{names['never']:x},4")
        forward = debugged.go("vCont;c")
        debugged.ask(f"Z0,{names['compute']:x},4")
        back = debugged.go("bc")
    with Debugged(elf) as debugged:
        debugged.ask(f"Z2,{names['word']:x},4")
        return forward, debugged.go("vCont;c"), back


def with_breakpoints(elf, count):
    """Returns the processor time of continue with so many breakpoints that are never hit, as a multiple of the plain run's."""
    with Debugged(elf) as debugged:
        for place in range(count):
            debugged.ask(f"Z0,{symbols(elf)['never'] + 4 * place:x},4")
        debugged.go("vCont;c")
        return debugged.processor_seconds() / taken(plain(elf))[0]


def with_idle_watch(elf):
    """Returns the processor time of continue with a watched word that nobody stores to, as a multiple of the plain run's."""
    with Debugged(elf) as debugged:
        debugged.ask(f"Z2,{symbols(elf)['idle']:x},4")
        debugged.go("vCont;c")
        return debugged.processor_seconds() / taken(plain(elf))[0]


def with_a_condition(elf):
    """Returns the seconds of continue over a breakpoint whose condition fails 100,000 times, infinity if no conditions are taken."""
    with Debugged(elf) as debugged:
        is_taken = debugged.ask(f"Z0,{symbols(elf)['visit']:x},4;{NEVER_MET}") == "OK"
        return debugged.go("vCont;c") if is_taken else math.inf


def waits(address):
    """Returns packets after which gdb waits: those of continue, of continue over a condition at an address, and of a search for a turn."""
    return ["vCont;c"], [f"Z0,{address:x},4;{NEVER_MET}", "vCont;c"], [f"qRcmd,{b'turn 1000000000'.hex()}"]


def interrupted(elf, *packets):
    """Returns the seconds from the byte 03 to the answer, half a second after the last of some packets."""
    with Debugged(elf, "--bound", "100000000000") as debugged:
        for packet in packets[:-1]:
            debugged.ask(packet)
        debugged.process.stdin.write(framed(packets[-1].encode()))
        time.sleep(0.5)
        begun = time.time()
        debugged.process.stdin.write(INTERRUPT)
        debugged.answer()
        return time.time() - begun


def over_a_line(elf):
    """Returns the seconds of gdb's reverse-next over a line of 150,000 instructions."""
    def session(*commands):
        words = ["break after", "continue", "up", *commands]
        return [f"{guest_runs.KIT}/dthreads-gdb", elf, "--quantum", "none", "--", "-batch", *[it for word in words for it in ("-ex", word)]]
    return seconds_of(session("reverse-finish", "reverse-next")) - seconds_of(session("reverse-finish"))


def steps_back(elf):
    """Returns the seconds of 1,000 steps back in the middle."""
    with Debugged(elf) as debugged:
        debugged.monitor(f"go {MIDDLE}")
        debugged.go("bs")
        begun = time.time()
        for _ in range(1000):
            debugged.ask("bs")
        return time.time() - begun


def memory_beside(elf):
    """Returns how many MiB a run to the end has at most in the debugger, beyond the plain run."""
    with Debugged(elf) as debugged:
        debugged.go("vCont;c")
        return guest_runs.memory_of(debugged.process) / 1024 - taken(plain(elf))[1]


def measure(options):
    """Measures the debugger: its times as multiples of the plain run's, and its memory."""
    with tempfile.TemporaryDirectory(prefix="dthreads-measure-") as room, Progress("rounds", ROUNDS) as progress:
        guests = {name: guest_runs.built(["-O1", *flags, SOURCE], f"{room}/{name}.elf") for name, flags in GUESTS.items()}
        long, names, memory = guests["long"], symbols(guests["long"]), memory_beside(guests["turns"])

        def numbers():
            progress.done += 1
            points = [with_breakpoints(guests[name], count) for name in ("short", "large") for count in POINTS]
            idle = [with_idle_watch(guests[name]) for name in ("long", "short")]
            asked = with_a_condition(guests["rounds"]), over_a_line(guests["line"])
            stops = [interrupted(guests["endless"], *it) for it in waits(symbols(guests["endless"])["visit"])]
            return [seconds_of(plain(long)), *with_points(long, names), steps_back(long), *points, *idle, *asked, *stops]

        run, forward, watched, back, steps, *others = least(ROUNDS, numbers)
    short, large, (idle_long, idle_short, condition, line), stops = others[:3], others[3:6], others[6:10], others[10:]
    print(f"continue with a breakpoint that is never hit: {forward / run:.2f} times the plain run")
    print(f"the same with {POINTS} in a program of short turns: {', '.join(f'{it:.2f}' for it in short)} times")
    print(f"the same with 512 KiB of code beside it: {', '.join(f'{it:.2f}' for it in large)} times")
    print(f"continue with a watched word that nobody stores to: {idle_long:.2f} times; in short turns {idle_short:.2f} times")
    print(f"continue with a watched word of a page that is stored to all the time: {watched / run:.2f} times the plain run")
    print(f"a condition that fails 100,000 times: {condition:.2f} s")
    print(f"reverse-next over 150,000 instructions of one line: {line:.2f} s")
    print(f"the byte 03 during continue, a condition, monitor turn: {', '.join(f'{it:.2f}' for it in stops)} s")
    print(f"reverse-continue from the end to a breakpoint at the start: {back / run:.2f} times the plain run")
    print(f"1,000 steps back in the middle: {steps:.2f} s")
    print(f"memory beside the plain run's, over a million turns: {memory:.1f} MiB")
    return 0
