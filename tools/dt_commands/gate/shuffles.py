"""What a schedule's number draws, worked out from the law's words: lists and lengths of phases.

The program crates/test_texts writes it last. `tools/dt write shuffles` writes that end of what the program must write.
"""
import os

from dt_commands.repository import TOP
from dt_commands.texts import contents, write_file

FILE = f"{TOP}/crates/test_texts/stdout"
# How the first of its lines begins.
FIRST = b"mix "
WORD = 2**64
LONGEST = [0, 0, 0, 8, 12, 16]
# What the program is asked: it has the same three lists.
WORDS = [0, 1, 1234567, 2**32, 2**63, WORD - 1]
NUMBERS = [*range(1, 65), 2**31, 2**32 - 1]
PHASES = [1, 2, 3, 4, 7, 8, 15, 16, 63, 64, 65, 128, 2**32 + 5, 2**63 + 64]


def mix(word):
    """Returns what a SplitMix64 generator with this state gives next."""
    word = (word + 0x9E3779B97F4A7C15) % WORD
    word = (word ^ (word >> 30)) * 0xBF58476D1CE4E5B9 % WORD
    word = (word ^ (word >> 27)) * 0x94D049BB133111EB % WORD
    return word ^ (word >> 31)


def draw(number, what, x, y):
    """Returns what a number draws for two others. What is drawn has a number of its own."""
    return mix(mix(mix(mix(number) ^ what) ^ x) ^ y)


def phase_list(number, phase, threads):
    """Returns the list of a phase in which these threads have a turn."""
    block = phase // 2 ** (draw(number, 1, 0, 0) % 4)
    order = sorted(threads, key=lambda it: (draw(number, 2, block, it), it))
    if phase % 64 == 0 or not order:
        return order
    kind = draw(number, 3, 0, 0) % 4
    if kind == 0:
        return order
    if kind == 1:
        return [it for place, it in enumerate(order) if place == 0 or draw(number, 4, block, it) % 2 == 0]
    if kind == 2:
        paces = {it: 4 ** (draw(number, 5, it, 0) % 4) for it in order}
        return [it for it in order if draw(number, 6, phase, it) % paces[it] == 0] or order[:1]
    return order[:1]


def length(number, phase, thread):
    """Returns after how many instructions a thread's fresh segment ends at the latest, or none."""
    longest = LONGEST[draw(number, 7, 0, 0) % 6]
    rarity = 2 ** (0, 2)[draw(number, 8, 0, 0) % 2]
    if longest == 0 or draw(number, 9, phase, thread) % rarity:
        return None
    least = 2 ** (draw(number, 10, phase, thread) % longest)
    return least + draw(number, 11, phase, thread) % least


def threads_of(number, phase):
    """Returns the threads that have a turn in the phase that the program asks for."""
    return [it * (1 + number % 3) for it in range((number + phase) % 13)]


def phase_line(number, phase):
    """Returns the program's line of a phase: each thread of its list, with its length."""
    listed = phase_list(number, phase, threads_of(number, phase))
    return f"{number} {phase}:" + "".join(f" {it}/{length(number, phase, it) or '-'}" for it in listed)


def made():
    """Returns what the program must write of numbers."""
    lines = [f"mix {it} {mix(it)}" for it in WORDS] + [phase_line(number, phase) for number in NUMBERS for phase in PHASES]
    return "".join(f"{it}\n" for it in lines)


def split(text):
    """Returns what the program must write before the numbers, and what it must write of them."""
    lines = text.splitlines(keepends=True)
    first = next((place for place, it in enumerate(lines) if it.startswith(FIRST)), len(lines))
    return b"".join(lines[:first]), b"".join(lines[first:])


def check(options):
    """Compares what the program must write of numbers with what they draw by the law's words."""
    same = split(contents(FILE))[1] == made().encode()
    print(f"{os.path.relpath(FILE, TOP)}: its draws are {'as' if same else 'not as'} worked out")
    return 0 if same else 1


def write(options):
    """Writes what the program must write of numbers."""
    write_file(FILE, split(contents(FILE))[0] + made().encode())
