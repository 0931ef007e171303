"""Programs that guest/dthreads-cc linked: their notes, and copies that begin elsewhere, at another time, or with more bytes.

As a command it writes a copy whose clock of the day begins at DATE, for guest/dthreads-gdb:

    program_file.py PROGRAM.elf DATE NEW.elf
"""
import struct
import sys

HEADER_BYTES, TABLE_ENTRY_BYTES = 52, 32
ENTRY_OFFSET, TABLE_OFFSET, COUNT_OFFSET = 24, 28, 44
LOAD, NOTE, READABLE = 1, 4, 4
PAGE = 4096
# The pages that a program may have in all, and the segments.
PAGES, SEGMENTS = 16384, 64
NOTE_NAME = b"dthreads\0\0\0\0"
# The notes: the version of the form of what comes before the input, and the entry that reads it; the clock of the day at the start,
# in seconds since 1970; that files may come by the image.
NOTE_ENTRY, NOTE_CLOCK, NOTE_FILES = 1, 2, 3
VERSION = 1
DATE = r"\d{4}-\d\d-\d\d(T\d\d:\d\d(:\d\d)?Z?)?"


class Refusal(Exception):
    """Why a program or a date can't be taken."""


def seconds_of(date):
    """Returns a date's seconds since 1970: 2026-11-30 or 2026-11-30T17:45:00Z, always of UTC."""
    # (to import these takes longer than a small run lasts, and most have no date)
    import datetime
    import re
    try:
        if not re.fullmatch(DATE, date):
            raise ValueError
        moment = datetime.datetime.fromisoformat(date.rstrip("Z")).replace(tzinfo=datetime.timezone.utc)
    except ValueError:
        raise Refusal(f"{date}: no date of UTC such as 2026-11-30 or 2026-11-30T17:45:00Z") from None
    if moment.year < 1970:
        raise Refusal(f"{date}: the clock begins in 1970 or later")
    return int(moment.timestamp())


class ProgramFile:
    """The bytes of a program, which may be changed."""

    def __init__(self, path):
        try:
            with open(path, "rb") as file:
                self.image = bytearray(file.read())
        except OSError as error:
            raise Refusal(f"{path}: {error.strerror}") from None
        self.notes = self.places_of_notes() if len(self.image) > HEADER_BYTES and self.image[:4] == b"\x7fELF" else {}
        if NOTE_ENTRY not in self.notes:
            raise Refusal(f"{path}: not linked by dthreads-cc of this version")
        if self.words(self.notes[NOTE_ENTRY], 1) != (VERSION,):
            raise Refusal(f"{path}: linked by another version of dthreads-cc: link it anew")

    def words(self, place, count):
        return struct.unpack_from("<%dI" % count, self.image, place)

    def segments(self):
        """Returns the words of each program header: kind, place in the file, address, its copy, bytes there and in memory, .."""
        table, = self.words(TABLE_OFFSET, 1)
        count, = struct.unpack_from("<H", self.image, COUNT_OFFSET)
        return [self.words(table + number * TABLE_ENTRY_BYTES, 8) for number in range(count)]

    def places_of_notes(self):
        """Returns where the kit's notes have their data, by type."""
        found = {}
        for kind, place, _, _, length, *_ in self.segments():
            end = place + length
            while kind == NOTE and place + 24 <= end:
                name_bytes, data_bytes, which = self.words(place, 3)
                data = place + 12 + (name_bytes + 3) // 4 * 4
                if self.image[place + 12:data] == NOTE_NAME:
                    found[which] = data
                place = data + (data_bytes + 3) // 4 * 4
        return found

    def begin_packed(self):
        """Lets the program begin at the entry that reads what comes before its input."""
        self.image[ENTRY_OFFSET:ENTRY_OFFSET + 4] = self.image[self.notes[NOTE_ENTRY] + 4:self.notes[NOTE_ENTRY] + 8]

    def set_clock(self, date):
        """Lets the clock of the day begin at a date. A program without the note never looks at that clock."""
        seconds = seconds_of(date)
        if NOTE_CLOCK in self.notes:
            struct.pack_into("<q", self.image, self.notes[NOTE_CLOCK], seconds)

    def has_mapped_files(self):
        return NOTE_FILES in self.notes

    def append(self, data):
        """Adds a segment of bytes that may be read, behind all others; returns its address."""
        table, loaded = self.segments(), [it for it in self.segments() if it[0] == LOAD and it[5] > 0]
        address = (max(it[2] + it[5] for it in loaded) + PAGE - 1) // PAGE * PAGE
        taken = sum((it[2] + it[5] - 1) // PAGE - it[2] // PAGE + 1 for it in loaded)
        if (len(data) + PAGE - 1) // PAGE > PAGES - taken or len(table) >= SEGMENTS:
            raise Refusal("the files take %d bytes, and the program's image has room for %d" % (len(data), (PAGES - taken) * PAGE))
        table.append((LOAD, len(self.image), address, address, len(data), len(data), READABLE, PAGE))
        self.image += data + b"\0" * (-len(data) % 4)
        struct.pack_into("<I", self.image, TABLE_OFFSET, len(self.image))
        struct.pack_into("<H", self.image, COUNT_OFFSET, len(table))
        self.image += b"".join(struct.pack("<8I", *it) for it in table)
        return address


def main(path, date, new):
    program = ProgramFile(path)
    program.set_clock(date)
    with open(new, "wb") as file:
        file.write(program.image)


if __name__ == "__main__":
    try:
        main(*sys.argv[1:])
    except Refusal as refusal:
        print(f"dthreads-gdb: {refusal}", file=sys.stderr)
        sys.exit(2)
