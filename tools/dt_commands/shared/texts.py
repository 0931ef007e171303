"""Texts compared, and lists read: what several commands do with files."""
import os


def contents(file):
    """Returns the bytes of a file, or None if there is no such file."""
    if not os.path.isfile(file):
        return None
    with open(file, "rb") as it:
        return it.read()


def read_text(file):
    """Returns the text of a file, which must be there."""
    with open(file, encoding="utf-8") as it:
        return it.read()


def write_file(file, text, mode=None):
    """Writes a file, of text or of bytes, in a folder that is made if it isn't there."""
    os.makedirs(os.path.dirname(os.path.abspath(file)), exist_ok=True)
    with open(file, "wb") as it:
        it.write(text if isinstance(text, (bytes, bytearray)) else text.encode())
    if mode is not None:
        os.chmod(file, mode)


def rows_of(file):
    """Returns the rows of a list, each as its words. Empty lines and those that begin with # are none."""
    with open(file, encoding="utf-8") as lines:
        rows = [line.split() for line in lines if not line.startswith("#")]
    return [it for it in rows if it]


def first_difference(wrote, wanted):
    """Returns the line, from 1 on, in which two texts differ first, with what each has there."""
    one, other = wrote.split(b"\n"), wanted.split(b"\n")
    at = next((it for it, (a, b) in enumerate(zip(one, other)) if a != b), min(len(one), len(other)))
    shown = [(it[at : at + 1] or [b"(its end)"])[0].decode(errors="replace")[:200] for it in (one, other)]
    return f"line {at + 1} is {shown[0]!r} and not {shown[1]!r}"
