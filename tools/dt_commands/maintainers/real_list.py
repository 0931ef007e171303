"""The programs of `tools/dt test real`, as tools/guests/real/list has them; its head says what its lines are."""
import glob
import shlex

from dt_commands.repository import TOP
from dt_commands.row_texts import split
from dt_commands.texts import contents, read_text

FOLDER = f"{TOP}/tools/guests/real"
INPUT_BYTES = 1300000
# Of the formula for a solver.
HOLES = 7


def own_text():
    """Some of the repository's own text, the same in every call."""
    text = b""
    for path in sorted(glob.glob(f"{TOP}/docs/*.md") + glob.glob(f"{TOP}/crates/*/*/*.rt") + glob.glob(f"{TOP}/crates/*/*/*.antt")):
        text += contents(path)
        if len(text) >= INPUT_BYTES:
            break
    return text[:INPUT_BYTES]


def numbers():
    """Lines of numbers, in no order."""
    return b"".join(b"%d\n" % (number * 7919 % 40009) for number in range(40009))


def pictures():
    """Sixteen pictures of 176 to 144 points in YUV, in which squares move over a slope."""
    made = bytearray()
    for number in range(16):
        for y in range(144):
            made += bytes((x + 2 * y + (80 if (x - 7 * number) % 44 < 16 and (y + 3 * number) % 36 < 16 else 0)) % 256 for x in range(176))
        made += bytes((128 + (number + at // 88) % 32) % 256 for at in range(2 * 88 * 72))
    return bytes(made)


def clauses():
    """A formula that nothing satisfies: HOLES + 1 pigeons, each in a hole, and no two in one."""
    pigeons = [[HOLES * pigeon + hole + 1 for hole in range(HOLES)] for pigeon in range(HOLES + 1)]
    pairs = [(-one, -other) for at, first in enumerate(pigeons) for second in pigeons[:at] for one, other in zip(first, second)]
    lines = [f"p cnf {HOLES * (HOLES + 1)} {len(pigeons) + len(pairs)}", *(f"{' '.join(map(str, it))} 0" for it in [*pigeons, *pairs])]
    return ("\n".join(lines) + "\n").encode()


def nothing():
    return b""


# The inputs that a line of the list names.
GIVEN = {"nothing": nothing, "numbers": numbers, "pictures": pictures, "clauses": clauses}


def of_file(name):
    """Returns what makes the bytes of a file of the folder."""
    return lambda: contents(f"{FOLDER}/{name}")


class Run:
    """A run of a program: its arguments, what makes its input, and the files that are there, by their names."""

    def __init__(self, arguments, given=own_text, files=None):
        self.arguments, self.given, self.files = arguments, given, files or {}


class Program:
    """A program: its name, packages and commands, its runs, whether it is in C++, further variables of its commands, native and for the
    guest (elf), and the name of the command that a host of Debian has of it."""

    def __init__(self, name, host=None):
        self.name, self.host, self.is_cxx = name, host, False
        self.packages, self.commands, self.runs, self.variables = [], [], [], {"native": {}, "elf": {}}

    def take(self, head, rest, given, files):
        """Takes a line of the list; a run has this input and these files."""
        if head == "from":
            self.packages = rest.split()
        elif head == "c++":
            self.is_cxx = True
        elif head == "host":
            self.host = rest
        elif head in self.variables:
            name, _, value = rest.partition("=")
            self.variables[head][name] = value
        elif head == "build":
            self.commands.append(rest)
        elif head == "run":
            words = [read_text(f"{FOLDER}/{it[1:]}") if it.startswith("@") else it for it in shlex.split(rest)]
            self.runs.append(Run(words, given, files))
        else:
            raise SystemExit(f"{FOLDER}/list: no line of a program: {head} {rest}")


def programs():
    """Returns the programs of the list, in its order."""
    found, given, files = [], own_text, {}
    for head, rest in (split(it) for it in read_text(f"{FOLDER}/list").splitlines() if it and not it.startswith("#")):
        if head == "program":
            found.append(Program(rest))
        elif head == "given":
            given = GIVEN.get(rest) or of_file(rest)
        elif head == "file":
            files[rest] = of_file(rest)
        else:
            found[-1].take(head, rest, given, files)
            given, files = (own_text, {}) if head == "run" else (given, files)
    return found


PROGRAMS = programs()
