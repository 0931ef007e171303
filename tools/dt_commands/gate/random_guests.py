"""Random guest programs: threads that compute, meet and trap. Each is fixed by the numbers that it is picked by."""
import struct

from dt_commands import written_guests

CODE, DATA, ROOM = 0x10000, 0x20000, 0x10000
EXIT, THREAD_EXIT, CREATE, JOIN, LOCK, UNLOCK, WAIT, SIGNAL, BROADCAST, BARRIER, WRITE, READ, MEMORY, SYNC, RELEASE = range(1, 16)
ZERO, T0, T1, T2, S0, S1, A0, A1, A2, A7, S2, S3 = 0, 5, 6, 7, 8, 9, 10, 11, 12, 17, 18, 19


def imm(rd, rs, value, funct, opcode=0x13):
    return (value & 0xFFF) << 20 | rs << 15 | funct << 12 | rd << 7 | opcode


def op(rd, a, b, funct, high=0):
    return high << 25 | b << 20 | a << 15 | funct << 12 | rd << 7 | 0x33


def store(base, value, offset, funct):
    return (offset >> 5 & 0x7F) << 25 | value << 20 | base << 15 | funct << 12 | (offset & 0x1F) << 7 | 0x23


def branch_back(a, words):
    """Goes back by so many words if a register isn't 0."""
    offset = -4 * words & 0x1FFF
    return (offset >> 12) << 31 | (offset >> 5 & 0x3F) << 25 | a << 15 | 1 << 12 | (offset >> 1 & 0xF) << 8 | (offset >> 11 & 1) << 7 | 0x63


def load_number(rd, value):
    high = (value + 0x800) >> 12 & 0xFFFFF
    return [high << 12 | rd << 7 | 0x37, imm(rd, rd, value - (high << 12), 0)]


def call(number, *arguments):
    words = []
    for register, value in zip((A0, A1, A2), arguments):
        words += load_number(register, value)
    return words + [imm(A7, ZERO, number, 0), 0x00000073]


def loop(random, body):
    """A body done some times."""
    turns = max(1, int(10 ** random.uniform(0, 4.6)))
    return load_number(S2, turns) + body + [imm(S2, S2, -1, 0), branch_back(S2, len(body) + 1)]


def place(random):
    """An offset from S0 that is a multiple of 4, often one that others use too."""
    return random.choice([0, 4, 64, 4 * random.randrange(512)])


def step(random):
    at = place(random)
    return random.choice([
        [imm(T0, S0, at, 2, 0x03), op(S1, S1, T0, 0)],
        [store(S0, S1, at, 2)],
        [store(S0, S1, at + random.randrange(4), 0)],
        [imm(T1, S0, at, 0, 0x03), op(S1, S1, T1, 4), op(S1, S1, S2, 0)],
        [op(T2, S1, S2, 0, 1), op(S1, S1, T2, 0)],
        [imm(T0, S1, random.randrange(12), 5), op(S1, S1, T0, 4)],
    ])


def work(random):
    return loop(random, [word for _ in range(random.randrange(1, 6)) for word in step(random)])


def section(random):
    mutex = random.randrange(3)
    inside = [word for _ in range(random.randrange(1, 4)) for word in step(random)]
    if random.random() < 0.3:
        inside += work(random)
    if random.random() < 0.2:
        inside += call(random.choice([SIGNAL, BROADCAST]), random.randrange(2))
    if random.random() < 0.05:
        inside += call(WAIT, random.randrange(2), mutex)
    return call(LOCK, mutex) + inside + call(UNLOCK, mutex)


def action(random):
    kind = random.random()
    if kind < 0.35:
        return work(random)
    if kind < 0.6:
        return call(SYNC)
    if kind < 0.8:
        return section(random)
    if kind < 0.88:
        return call(WRITE, DATA + place(random), random.randrange(1, 9))
    if kind < 0.92:
        return call(READ, DATA + place(random), random.randrange(1, 9))
    if kind < 0.95:
        return call(MEMORY, random.randrange(1, 4))
    if kind < 0.97:
        return call(SIGNAL, random.randrange(2))
    if kind < 0.98:
        return call(BARRIER, 0, 2)
    if kind < 0.99:
        return call(RELEASE, 0x20000000, 1)
    return random.choice([[0x00100073], [0], call(EXIT, random.randrange(256)), call(random.randrange(40), 1, 2, 3)])


def body(random):
    words = load_number(S0, DATA) + [op(S1, A0, A1, 0)]
    for _ in range(random.randrange(1, 9)):
        words += action(random)
    if random.random() < 0.5:  # the same again, some times
        turns = random.randrange(2, 30)
        if len(words) < 900:
            words = load_number(S3, turns) + words + [imm(S3, S3, -1, 0), branch_back(S3, len(words) + 1)]
    return words + call(THREAD_EXIT, random.randrange(256))


def file_of(main, first, words):
    """The file of a program whose code begins with these words, and goes on with others after so many."""
    assert len(main) <= first
    code = b"".join(struct.pack("<I", word & 0xFFFFFFFF) for word in main + [0] * (first - len(main)) + words)
    return written_guests.file_with(CODE, code, [(DATA, ROOM)])


def guest(random):
    """The file of a program."""
    threads = random.choice([1, 2, 3, 4, 4, 5, 8, random.randrange(1, 40)])
    bodies = [body(random) for _ in range(random.randrange(1, 4))]
    first = 19 * threads + 400
    starts, words = [], []
    for one in bodies:
        starts.append(CODE + 4 * (first + len(words)))
        words += one
    main = call(LOCK, 0)
    for thread in range(threads):
        main += call(CREATE, random.choice(starts), thread, 0)
    main += call(UNLOCK, 0) + load_number(S0, DATA) + [imm(S1, ZERO, 0, 0)]
    for _ in range(random.randrange(3)):
        main += action(random)
    for thread in random.sample(range(threads), threads):
        main += call(JOIN, thread + 1)
    main += [imm(A0, S0, 0, 4, 0x03), imm(A7, ZERO, EXIT, 0), 0x00000073]
    return file_of(main, first, words)
