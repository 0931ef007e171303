"""The texts of rows: their fields, the rows of a file, and what of a row is not as wanted."""
import re

from dt_commands.texts import contents

ESCAPES = {"n": b"\n", "r": b"\r", "\\": b"\\"}
ESCAPE = re.compile(r"\\(?:x([0-9a-f]{2})|(.))")


def split(line):
    """Returns a line's first word, and what comes after the space behind it."""
    head, _, rest = line.partition(" ")
    return head, rest


def bytes_of(text):
    r"""Returns the bytes that a text says, in which \n, \r and \xHH stand for a newline, a carriage return and a byte."""
    made, end = b"", 0
    for found in ESCAPE.finditer(text):
        made += text[end : found.start()].encode()
        made += bytes.fromhex(found[1]) if found[1] else ESCAPES[found[2]]
        end = found.end()
    return made + text[end:].encode()


def text_at(path):
    """Returns the text of a file, without an exchange of its ends of lines."""
    return contents(path).decode()


def listed(folder):
    """Returns the names that the file `list` of a folder has, in its order."""
    return [it for it in text_at(f"{folder}/list").splitlines() if it and not it.startswith("#")]


class LinedRow:
    """A row of a file of rows: its name, the values that it is made for, and the lines that are taken one by one."""

    def __init__(self, name):
        self.name, self.values, self.lines = name, [], []

    def take(self, line):
        name, rest = split(line)
        if name == "for":
            self.values.append(rest)
        elif name == "each":
            self.values += [it for word in rest.split() for it in numbers_of(word)]
        else:
            self.lines.append(line)

    def each(self):
        """Yields each value with the lines in which it stands in the place of {}."""
        for value in self.values or [""]:
            yield value, [it.replace("{}", value) for it in self.lines]


def numbers_of(word):
    """Returns the numbers of FIRST..LAST, both included, or the word alone."""
    found = re.fullmatch(r"(\d+)\.\.(\d+)", word)
    return [str(it) for it in range(int(found[1]), int(found[2]) + 1)] if found else [word]


def lined_rows(text):
    """Returns the rows that a text has."""
    rows = []
    for line in text.splitlines():
        if line.startswith("row "):
            rows.append(LinedRow(line[len("row ") :]))
        elif line and not line.startswith("#"):
            rows[-1].take(line)
    return rows


class Differences:
    """Notes what of a row is not as wanted."""

    def __init__(self):
        self.texts = []

    def expect(self, found, wanted, what):
        """Notes unless two values are equal; of two texts the first line that differs is shown."""
        if found == wanted:
            return
        if isinstance(found, bytes) and isinstance(wanted, bytes):
            self.texts.append(f"{what}: {first_line(found, wanted)}")
        else:
            self.texts.append(f"{what}: {found!r}, wanted {wanted!r}")


def first_line(found, wanted):
    """Returns the first line of a text that another one has not, or says that one lacks."""
    lines = wanted.splitlines() + [None]
    for at, line in enumerate(found.splitlines()):
        if at >= len(lines) or line != lines[at]:
            return repr(line[:200])
    return "a line lacks"
