"""The guest programs of crates/test_guest_runs/data, read without the program of the tests: files, and what runs of them give."""
import glob
import os
import re
import struct
from collections import namedtuple

from dt_commands.repository import TOP
from dt_commands.texts import contents

DATA = f"{TOP}/crates/test_guest_runs/data"
WORD = re.compile(r"([0-9a-f]{8}): ([0-9a-f]{8}) ")
# A run: its program's name, the options that it needs, and its input.
Run = namedtuple("Run", "name words given")


def names():
    """Returns the names of all programs."""
    return sorted(os.path.basename(it)[: -len(".guest")] for it in glob.glob(f"{DATA}/*.guest"))


def text_of(name):
    return contents(f"{DATA}/{name}.guest").decode()


def head_of(name):
    """Returns what a program's file has before its runs."""
    return re.split(r"^run ", text_of(name), maxsplit=1, flags=re.M)[0]


def is_sample(name):
    """Returns whether a program is one of the samples."""
    return bool(re.search(r"^sample$", head_of(name), re.M))


def listing(name):
    """Returns the words of a program by their addresses, from its own listing or from the sample's beside it."""
    head = head_of(name)
    text = head if re.search(r"^listing$", head, re.M) else contents(f"{DATA}/{name}.listing").decode()
    return words_of(text)


def words_of(listing_text):
    return {int(address, 16): int(word, 16) for address, word in WORD.findall(listing_text)}


def zeros_in(text):
    """Returns the segments of zeros that a program's text has: of each its address and its size."""
    return [(int(at, 16), int(size)) for at, size in re.findall(r"^zeros ([0-9a-f]+) (\d+)$", text, re.M)]


def zeros_of(name):
    return zeros_in(text_of(name))


def elf(name):
    """Returns the file of a program: a segment of code, and its segments of zeros."""
    return elf_of(name, listing(name), zeros_of(name))


def elf_of(name, words, zeros):
    """Returns the file of a program with these words by their addresses, and these segments of zeros."""
    start = min(words)
    if 4 * len(words) != max(words) + 4 - start:
        raise SystemExit(f"{name}: its listing has gaps")
    return file_of([words[it] for it in sorted(words)], zeros, start)


def file_of(words, zeros=((0x20000, 4096),), start=0x10000):
    """Returns a file whose code are these words, with further segments of zeros that can be read and written."""
    return file_with(start, b"".join(struct.pack("<I", it) for it in words), zeros)


def file_with(start, code, zeros):
    """Returns a file: a segment of code, where it begins, and segments of zeros, each with its address and size."""
    count = 1 + len(zeros)
    at = 52 + 32 * count
    header = bytes.fromhex("7f454c46010101000000000000000000")
    header += struct.pack("<HHIIIIIHHHHHH", 2, 243, 1, start, 52, 0, 0, 52, 32, count, 0, 0, 0)
    rows = [struct.pack("<8I", 1, at, start, 0, len(code), len(code), 5, 0)]
    rows += [struct.pack("<8I", 1, at, address, 0, 0, size, 6, 0) for address, size in zeros]
    return header + b"".join(rows) + code


def of_block(name, block):
    """Returns the run of a block of a program's file."""
    told = {key: value for key, value in re.findall(r"^(input|bound|quantum) (\S+)$", block, re.M)}
    words = [word for key in ("bound", "quantum") if key in told for word in (f"--{key}", told[key])]
    return Run(name, words, bytes.fromhex(told.get("input", "")))


def runs(name):
    """Returns the runs that a program's file has; some programs have none."""
    return [of_block(name, it) for it in re.split(r"^run .*$", text_of(name), flags=re.M)[1:]]
