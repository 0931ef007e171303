"""Memory by GUEST.md: the pages of a file, copies of them, and the bytes that a copy changed."""
import struct

PAGE = 4096
# Pages are compared by blocks of so many bytes first.
BLOCK = 64
# What a page permits.
LOADS, STORES, FETCHES = 1, 2, 4
SEGMENT = 1
HEAP, STACK, STACK_END = 0x20000000, 0x7FFC0000, 0x80000000
# Where a file's header has its entry, the offset of its program headers, and their size and number.
ENTRY, TABLE, ROWS = 24, 28, 42
NOWHERE = 0, b""


def entry_of(elf):
    """Returns the address at which a file's thread 0 starts."""
    return struct.unpack_from("<I", elf, ENTRY)[0]


def segments_of(elf):
    """Yields the segments of a file: of each its address, its bytes in the file, its size and what it permits."""
    offset, = struct.unpack_from("<I", elf, TABLE)
    size, count = struct.unpack_from("<HH", elf, ROWS)
    for index in range(count):
        kind, at, start, _, in_file, in_memory, flags = struct.unpack_from("<7I", elf, offset + size * index)
        if kind == SEGMENT and in_memory:
            permits = (flags >> 2 & 1) + (flags & 2) + (4 if flags & 1 else 0)
            yield start, elf[at : at + in_file], in_memory, permits


def pages_of(elf):
    """Returns the pages of a file and of thread 0's stack by number: what each permits, and its bytes. Each touched page is mapped whole."""
    pages = {}
    for start, data, size, permits in segments_of(elf):
        first, last = start // PAGE, (start + size - 1) // PAGE
        whole = bytes(start % PAGE) + data
        whole += bytes(PAGE * (last - first + 1) - len(whole))
        pages.update({first + it: (permits, whole[PAGE * it : PAGE * (it + 1)]) for it in range(last - first + 1)})
    pages.update({it: (LOADS + STORES, bytes(PAGE)) for it in range(STACK // PAGE, STACK_END // PAGE)})
    return pages


class Copy:
    """A thread's copy of memory: the pages as they were, which nobody changes, and those that the thread has stored to."""

    def __init__(self, pages):
        self.pages, self.stored = pages, {}

    def read(self, address, size, permit):
        """Returns the number at an aligned address, its lowest byte first, or None if that isn't permitted."""
        number, at = divmod(address, PAGE)
        permits, data = self.pages.get(number, NOWHERE)
        if not permits & permit:
            return None
        return int.from_bytes(self.stored.get(number, data)[at : at + size], "little")

    def loaded(self, address, size):
        return self.read(address, size, LOADS)

    def fetched(self, address):
        return self.read(address, 4, FETCHES)

    def store(self, address, size, value):
        """Stores a number at an aligned address. Returns whether that is permitted."""
        number, at = divmod(address, PAGE)
        permits, data = self.pages.get(number, NOWHERE)
        if not permits & STORES:
            return False
        self.stored.setdefault(number, bytearray(data))[at : at + size] = value.to_bytes(size, "little")
        return True

    def changes(self):
        """Returns the bytes that differ from the copy as it was, by their addresses, ascending."""
        found = {}
        for number, mine in sorted(self.stored.items()):
            was = self.pages[number][1]
            for at in (it for it in range(0, PAGE, BLOCK) if mine[it : it + BLOCK] != was[it : it + BLOCK]):
                found.update({PAGE * number + it: mine[it] for it in range(at, at + BLOCK) if mine[it] != was[it]})
        return found


class Shared:
    """Shared memory: pages by number, what each permits and its bytes."""

    def __init__(self, pages):
        self.pages, self.top = dict(pages), HEAP

    def now(self):
        """Returns the pages as they are, for copies."""
        return dict(self.pages)

    def write(self, changes):
        """Writes bytes by their addresses. A byte of a page that isn't mapped any more is dropped."""
        written = {}
        for address, byte in changes.items():
            number, at = divmod(address, PAGE)
            if number in self.pages:
                written.setdefault(number, bytearray(self.pages[number][1]))[at] = byte
        self.pages.update({number: (self.pages[number][0], bytes(data)) for number, data in written.items()})

    def permits(self, address, length, permit):
        """Returns whether a range is permitted, byte by byte; an empty one is."""
        numbers = range(address // PAGE, (address + length - 1) // PAGE + 1) if length else ()
        return all(self.pages.get(it, NOWHERE)[0] & permit for it in numbers)

    def bytes_at(self, address, length):
        """Returns the bytes of a range of mapped memory."""
        numbers = range(address // PAGE, (address + length) // PAGE + 1)
        return b"".join(self.pages.get(it, (0, bytes(PAGE)))[1] for it in numbers)[address % PAGE :][:length]

    def grow(self, count):
        """Maps so many pages of zeros at the heap's top. Returns the first address."""
        first, self.top = self.top, self.top + PAGE * count
        self.pages.update({it: (LOADS + STORES, bytes(PAGE)) for it in range(first // PAGE, self.top // PAGE)})
        return first

    def unmap(self, address, count):
        """Unmaps so many pages of the heap. Returns whether all of them were mapped; if not, none is unmapped."""
        numbers = range(address // PAGE, address // PAGE + count)
        if address < HEAP or address + PAGE * count > self.top or not all(it in self.pages for it in numbers):
            return False
        for it in numbers:
            del self.pages[it]
        return True
