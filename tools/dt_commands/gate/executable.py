"""What an executable is when it is stripped: what the loader reads of it, and nothing else. And the names of its symbols.

No tool strips it, since two versions of one need not write the same bytes, and the released program is compared byte for byte.
"""
import struct

MAGIC = b"\x7fELF\x02\x01"
# Where the header of a 64-bit ELF file has the offset of the program headers, that of the section headers, and the sizes and numbers of both.
PROGRAM_HEADERS, SECTION_HEADERS, COUNTS = 32, 40, 54
# The type of a section that is a table of symbols, and the size of a symbol.
SYMBOLS, SYMBOL = 2, 24


def checked(data):
    """Returns the executable, if it is one."""
    if data[: len(MAGIC)] != MAGIC:
        raise ValueError("no 64-bit ELF file")
    return data


def names(data):
    """Returns the names of the executable's symbols. It has none if it is stripped."""
    (start,) = struct.unpack_from("<Q", checked(data), SECTION_HEADERS)
    each, number = struct.unpack_from("<HH", data, COUNTS + 4)
    sections = [struct.unpack_from("<4xI16xQQI", data, start + each * it) for it in range(number)]
    found = []
    for kind, offset, size, link in sections:
        if kind == SYMBOLS:
            texts = sections[link][1]
            places = (texts + struct.unpack_from("<I", data, it)[0] for it in range(offset, offset + size, SYMBOL))
            found += [data[it : data.index(0, it)].decode() for it in places]
    return found


def stripped(data):
    """Returns the executable without its sections, and with them without its symbols: its headers, and the bytes of its segments."""
    (start,) = struct.unpack_from("<Q", checked(data), PROGRAM_HEADERS)
    each, number = struct.unpack_from("<HH", data, COUNTS)
    end = start + each * number
    for at in range(start, end, each):
        offset, size = struct.unpack_from("<8xQ16xQ", data, at)
        end = max(end, offset + size)
    kept = bytearray(data[:end])
    struct.pack_into("<Q", kept, SECTION_HEADERS, 0)
    struct.pack_into("<HHH", kept, COUNTS + 4, 0, 0, 0)
    return bytes(kept)
