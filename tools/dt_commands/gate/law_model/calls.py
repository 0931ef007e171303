"""The call table of GUEST.md, on the state that the threads of a run share. A call's tests are made in the order written."""
from dt_commands.law_model.instructions import WORD, Hart
from dt_commands.law_model.memory import LOADS, PAGE, STORES, HEAP, Shared

DONE, NO_CALL, BAD_ARGUMENT, BAD_ADDRESS, LIMIT, NOT_HOLDER, HOLDS, NO_THREAD, HELD, OTHER_COUNT = range(10)
READY, WOKEN, WAITING, ENDED = "ready", "woken", "waiting", "done"
# What a call that isn't completed comes to, as the trace says it.
WAIT, END = "wait", "end"
THREADS, OBJECTS, MOST_AT_BARRIER, TRANSFER, OUTPUT = 256, 64, 256, 65_536, 16_777_216
PAGES_OF_A_CALL, HEAP_PAGES = 1024, 16_384


class Thread:
    """A thread: its hart, its status, how many instructions it has executed, and its value once it is done."""

    def __init__(self, number, hart):
        self.number, self.hart, self.status, self.executed, self.value = number, hart, READY, 0, None
        # (what it waits at: a thread's number, a condition variable's and a mutex's, or a barrier's and its count)
        self.place = None

    def answer(self, code, value=None):
        """Completes its call: the code goes into x10, the value, if there is one, into x11, and pc goes on by 4."""
        self.hart.put(10, code)
        if value is not None:
            self.hart.put(11, value)
        self.hart.pc += 4

    def wait_at(self, *place):
        self.status, self.place = WAITING, place
        return WAIT

    def let_go(self, *answer):
        """Ends its wait: it is ready from the next phase on."""
        self.status, self.place = READY, None
        self.answer(*answer)


class State:
    """What calls read and change: threads, who holds which mutex, queues of condition variables, memory, input and output."""

    def __init__(self, pages, entry, number, choices, given):
        self.memory, self.given, self.output, self.status = Shared(pages), given, bytearray(), None
        self.threads = [Thread(0, Hart(entry, x2=0x7FFFFFF0, x10=number, x11=choices))]
        self.holders, self.queues = {}, {it: [] for it in range(OBJECTS)}

    def held_by(self, thread):
        """Returns the mutexes that a thread holds."""
        return [it for it, holder in self.holders.items() if holder is thread]

    def waiting_at(self, *place):
        """Returns the threads that wait at such a place, ascending."""
        return [it for it in self.threads if it.status == WAITING and it.place[: len(place)] == place]

    def wake(self, condition, most):
        """Wakes the first of a condition variable's queue. Returns how many."""
        woken, self.queues[condition] = self.queues[condition][:most], self.queues[condition][most:]
        for it in woken:
            it.status = WOKEN
        return len(woken)


def end_run(state, thread, status, *_):
    """exit(status)"""
    state.status = status
    return END


def thread_exit(state, thread, value, *_):
    for mutex in state.held_by(thread):
        del state.holders[mutex]
    thread.status, thread.value = ENDED, value
    for it in state.waiting_at("thread", thread.number):
        it.let_go(DONE, value)
    return END


def create(state, thread, entry, argument, stack_pointer):
    number = len(state.threads)
    if entry % 4:
        return (BAD_ARGUMENT,)
    if number == THREADS:
        return (LIMIT,)
    state.threads.append(Thread(number, Hart(entry, x2=stack_pointer, x10=argument, x11=number)))
    return DONE, number


def join(state, thread, number, *_):
    if number >= len(state.threads) or number == thread.number:
        return (NO_THREAD,)
    if state.threads[number].status == ENDED:
        return DONE, state.threads[number].value
    if state.held_by(thread):
        return (HOLDS,)
    return thread.wait_at("thread", number)


def lock(state, thread, mutex, *_):
    if mutex >= OBJECTS:
        return (BAD_ARGUMENT,)
    if state.holders.get(mutex) is thread:
        return (HELD,)
    assert mutex not in state.holders
    state.holders[mutex] = thread
    return (DONE,)


def unlock(state, thread, mutex, *_):
    if mutex >= OBJECTS:
        return (BAD_ARGUMENT,)
    if state.holders.get(mutex) is not thread:
        return (NOT_HOLDER,)
    del state.holders[mutex]
    return (DONE,)


def wait(state, thread, condition, mutex, *_):
    if condition >= OBJECTS or mutex >= OBJECTS:
        return (BAD_ARGUMENT,)
    if state.holders.get(mutex) is not thread:
        return (NOT_HOLDER,)
    if state.held_by(thread) != [mutex]:
        return (HOLDS,)
    del state.holders[mutex]
    state.queues[condition].append(thread)
    return thread.wait_at("condition", condition, mutex)


def signal(state, thread, condition, *_):
    return (DONE, state.wake(condition, 1)) if condition < OBJECTS else (BAD_ARGUMENT,)


def broadcast(state, thread, condition, *_):
    return (DONE, state.wake(condition, THREADS)) if condition < OBJECTS else (BAD_ARGUMENT,)


def barrier(state, thread, number, count, *_):
    if number >= OBJECTS or not 0 < count <= MOST_AT_BARRIER:
        return (BAD_ARGUMENT,)
    if state.held_by(thread):
        return (HOLDS,)
    waiting = state.waiting_at("barrier", number)
    if waiting != state.waiting_at("barrier", number, count):
        return (OTHER_COUNT,)
    if len(waiting) + 1 < count:
        return thread.wait_at("barrier", number, count)
    for it in waiting:
        it.let_go(DONE, 0)
    return DONE, 1


def write(state, thread, address, length, *_):
    if length > TRANSFER:
        return (BAD_ARGUMENT,)
    if address + length > WORD or not state.memory.permits(address, length, LOADS):
        return (BAD_ADDRESS,)
    if len(state.output) + length > OUTPUT:
        return (LIMIT,)
    state.output += state.memory.bytes_at(address, length)
    return DONE, length


def read(state, thread, address, length, *_):
    if length > TRANSFER:
        return (BAD_ARGUMENT,)
    if address + length > WORD or not state.memory.permits(address, length, STORES):
        return (BAD_ADDRESS,)
    taken, state.given = state.given[:length], state.given[length:]
    state.memory.write({address + it: byte for it, byte in enumerate(taken)})
    return DONE, len(taken)


def memory(state, thread, count, *_):
    if not 0 < count <= PAGES_OF_A_CALL:
        return (BAD_ARGUMENT,)
    if (state.memory.top - HEAP) // PAGE + count > HEAP_PAGES:
        return (LIMIT,)
    return DONE, state.memory.grow(count)


def sync(state, thread, *_):
    return (DONE,)


def release(state, thread, address, count, *_):
    if not 0 < count <= PAGES_OF_A_CALL or address % PAGE:
        return (BAD_ARGUMENT,)
    return (DONE,) if state.memory.unmap(address, count) else (BAD_ADDRESS,)


def no_such_call(state, thread, *_):
    return (NO_CALL,)


# By number: a call's name in the trace, and what it does.
CALLS = {1: ("exit", end_run)}
CALLS.update({number: (it.__name__, it) for number, it in enumerate([
    thread_exit, create, join, lock, unlock, wait, signal, broadcast, barrier, write, read, memory, sync, release], 2)})


def carry_out(state, thread):
    """Carries out the call at which a thread has stopped. Returns what the trace says of it."""
    number, arguments = thread.hart.x[17], thread.hart.x[10:13]
    name, does = CALLS.get(number, (f"call_{number:08x}", no_such_call))
    result = does(state, thread, *arguments)
    if result not in (WAIT, END):
        thread.answer(*result)
        result = " ".join([str(result[0]), *(f"{it:08x}" for it in result[1:])])
    return " ".join([name, *(f"{it:08x}" for it in arguments), "->", result])


def end_wait(state, thread):
    """The turn of a woken thread: it takes the mutex of its wait, which ends with code 0. Returns the mutex."""
    mutex = thread.place[-1]
    assert mutex not in state.holders
    state.holders[mutex] = thread
    thread.let_go(DONE)
    return mutex
