"""Who wrote each byte of a value as a guest thread sees it, by what an engine tells of stores and commits."""
from engine import last_store


# How many turns of the trace are looked at together.
SOME = 512


def before_phase(engine, position):
    """Returns the last turn before the phase of a position, 0 if there is none."""
    last = position.turn
    while last > 0:
        earlier = [it.number for it in engine.turns(max(1, last - SOME + 1), last) if it.phase < position.phase]
        if earlier:
            return earlier[-1]
        last -= SOME
    return 0


def base_of(engine, position):
    """Returns the last turn that the base of the thread at a position's turn has: the one before if the thread kept the token."""
    before = engine.turns(position.turn - 1, position.turn - 1) if position.turn > 1 else []
    keeps = bool(before) and (before[0].phase, before[0].thread) == (position.phase, position.thread)
    return position.turn - 1 if keeps else before_phase(engine, position)


def seen_by(engine, position, thread):
    """Returns the last turn that a thread's memory has, and whether it has stores of an open turn, too."""
    _, shows = engine.threads().get(thread, ("", ""))
    if shows == "its own memory":
        return base_of(engine, position), True
    if "phase's start" in shows:
        return before_phase(engine, position), False
    return position.turn if position.is_end else position.turn - 1, False


def changed(write, at):
    return write.base[at] != write.stored[at]


def is_unsure(write, at):
    """Returns whether a byte may be another thread's: it was there before, and this turn changed other bytes."""
    return changed(write, at) and write.before[at] == write.stored[at]


def writes_of(engine, address, length):
    """Returns for each byte the turns that changed it, in order."""
    every = engine.writers(address, length)
    for at in range(length):
        if length > 1 and any(is_unsure(it, at) for it in every):
            yield engine.writers(address + at, 1)
        else:
            yield [it._replace(base=it.base[at:], stored=it.stored[at:], before=it.before[at:]) for it in every if changed(it, at)]


class Origins:
    """Who wrote each byte of a value as a thread sees it."""

    def __init__(self, engine, position, thread, address, length):
        self.engine, self.position, self.thread, self.address, self.length = engine, position, thread, address, length
        engine.go_to_step(position.step)
        self.until, self.has_open = seen_by(engine, position, thread)
        self.writes = [[it for it in some if changed(it, 0)] for some in writes_of(engine, address, length)]
        self.stores = {}
        if self.has_open:
            self.search(range(length), position.turn)
        from_turn = {}
        for at in range(length):
            if self.write_of(at):
                from_turn.setdefault(self.write_of(at).turn, []).append(at)
        for turn, some in sorted(from_turn.items()):
            engine.go_behind(turn)
            self.search(some, turn)

    def write_of(self, at):
        """Returns the commit that a byte comes from, None if it comes from the open turn or from nobody."""
        found = [it for it in self.writes[at] if it.turn <= self.until]
        is_open = self.has_open and at in self.stores and self.stores[at].position.turn == self.position.turn
        return found[-1] if found and not is_open else None

    def search(self, some, turn):
        """Finds the last store of a turn, before the engine's position, to each of these bytes."""
        left = set(some)
        while left:
            store = last_store(self.engine, [self.address + it for it in sorted(left)])
            if not store or store.position.turn != turn:
                return
            for it in [it for it in left if store.has(self.address + it)]:
                self.stores[it] = store
                left.discard(it)

    def silent(self, at, write):
        """Returns the last store to a byte, of those to its neighbours, that changed the others alone."""
        since = write.turn if write else 0
        found = {it for it in self.stores.values() if it.has(self.address + at) and it.position.turn > since and at not in self.stores}
        return sorted(found, key=lambda it: it.position.step)[-1:]

    def overwritten(self, at, write):
        """Returns the commit whose byte was there when a newer one was merged over it, unseen by its thread."""
        if not write or write.before[0] == write.base[0]:
            return None
        found = [it for it in self.writes[at] if it.turn < write.turn]
        return found[-1] if found else None

    def newer(self, at):
        """Returns the last commit of a byte that the thread doesn't see, if there is one."""
        found = [it for it in self.writes[at] if it.turn > self.until]
        return found[-1] if found else None

    def store_of(self, write, at):
        """Returns the store of a commit's byte."""
        self.engine.go_behind(write.turn)
        store = last_store(self.engine, [self.address + at])
        return store if store and store.position.turn == write.turn else None
