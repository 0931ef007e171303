"""Guest programs for tests of host threads."""
from dt_commands.random_guests import A0, A7, CODE, CREATE, DATA, EXIT, JOIN, LOCK, S0, SYNC, THREAD_EXIT, UNLOCK, ZERO, branch_back, call, file_of, imm, load_number, store

# After so many words come those of the threads.
FIRST = 1000
# How many rounds are counted by who works for so long that its phase is shared out.
LONG = 3000
TO_ITSELF = [0x0000006F]


def created(starts):
    """Makes threads that begin at these words, all in one phase."""
    words = call(LOCK, 0)
    for place in starts:
        words += call(CREATE, CODE + 4 * (FIRST + place), 0, 0)
    return words + call(UNLOCK, 0)


def endless(threads):
    """Thread 0 and so many others loop without end, in one phase."""
    return file_of(created([0] * threads) + call(SYNC) + TO_ITSELF, FIRST, TO_ITSELF)


def meeting(threads):
    """Thread 0 and so many others call sync without end."""
    syncs = [*call(SYNC), branch_back(A7, 2)]
    return file_of(created([0] * threads) + syncs, FIRST, syncs)


def counted(rounds):
    """Counts so many rounds, of two instructions each."""
    return [*load_number(S0, rounds), imm(S0, S0, -1, 0), branch_back(S0, 1)]


def waiting(rounds):
    """Thread 0 counts so many rounds and waits for thread 1, which loops without end in the same phase."""
    return file_of(created([0]) + counted(rounds) + call(JOIN, 1), FIRST, TO_ITSELF)


def racing():
    """Threads 1 and 2 count for long and change one word."""
    works = [*counted(LONG), *load_number(S0, DATA), store(S0, S0, 0, 2), *call(THREAD_EXIT, 0)]
    main = created([0, 0]) + call(JOIN, 1) + call(JOIN, 2)
    return file_of([*main, imm(A0, ZERO, 2, 0), imm(A7, ZERO, EXIT, 0), 0x00000073], FIRST, works)


def gaps():
    """Threads 0, 2 and 4 store and sync some times after threads 1 and 3 have ended. Threads 2 and 4 count for long before."""
    works = [*counted(LONG), *load_number(S0, DATA)]
    for offset in range(3):
        works += [store(S0, S0, 4 * offset, 2), *call(SYNC)]
    works += call(THREAD_EXIT, 0)
    main = created([len(works), 0, len(works), 0]) + call(SYNC) + call(SYNC)
    for thread in range(1, 5):
        main += call(JOIN, thread)
    return file_of([*main, imm(A0, ZERO, 7, 0), imm(A7, ZERO, EXIT, 0), 0x00000073], FIRST, works + call(THREAD_EXIT, 1))
