"""Tries the rounds of one crate over what a check of it as it stands proved, and says what each edit came to.

All checks work on copies among the temporary files: of the crate's sources, and of its kept work, what was proved by hard links. So
several of one crate can run side by side, and none touches the crate's own out/.
"""
import contextlib
import os
import shutil
import tempfile
import time

from dt_commands import kit
from dt_commands.kit import BAD, LIMIT, MISSED, REFUSED, UNSURE
from dt_mutants import verdicts, weak
from dt_mutants.edits import made
from dt_mutants.rounds import plan

# What an edit comes to, beside the kinds of kit: no goal of the function that it changes refuses it; or one does, and the list of those
# that none refuses has it all the same.
WEAK, LISTED = "weak", "listed in vain"
# An edit that is weak or at a limit, in a crate whose mutants are still to be looked at.
TOLD = "told"
# The function and the goal of an edit that no goal refuses.
NOWHERE = ("-", "by_names_alone")


def parts_of(edits, spoiling):
    """Returns the rounds in which the edits of a spoilt round are tried again: those that spoil it alone, or else the two halves."""
    others = [it for it in edits if it not in spoiling]
    if spoiling and others:
        return [others, *[[it] for it in spoiling]]
    half = len(edits) // 2
    return [edits[:half], edits[half:]]


class Trial:
    """The try of all edits of a crate. Each step returns the steps that it makes needed; `results` has what each edit came to, and
    `verdicts` by what each is refused."""

    def __init__(self, crate, edits, note, is_proved=False):
        """`note` is told of each round its edits, what came of it, what is tried again, what the check printed and its seconds.
        `is_proved` says that a check just proved the crate, and that what it kept is in the crate's out/."""
        self.crate, self.note, self.room, self.files, self.is_proved = crate, note, None, {}, is_proved
        self.edits = edits
        self.results = {it: (BAD, it.why) for it in edits if it.why}
        self.rounds = plan([it for it in edits if not it.why])
        # whether it came to its end, and what keeps it from saying anything
        self.is_over, self.failure = False, None
        self.verdicts, self.listed, self.is_waiting = [], weak.listed(crate.name), weak.is_waiting(crate.name)

    def begin(self):
        return self.safely(self.make_seed)

    def safely(self, call, *given):
        """Calls a step, and returns no further ones if it fails because the disk is full, or the like."""
        try:
            return call(*given)
        except (OSError, shutil.Error) as error:
            self.failure = f"it couldn't be tried: {error}"
            return []

    def make_seed(self):
        """Makes the seed, over which each round is tried: the kept work of a check of the crate as it stands, which must prove it."""
        self.room = tempfile.mkdtemp(prefix=f"rt-edits-{os.getpid()}-")
        kept = f"{self.crate.folder}/out/incremental"
        with contextlib.suppress(OSError, shutil.Error):
            if os.path.isdir(kept):
                kit.linked(kept, self.seed)
        os.makedirs(self.seed, exist_ok=True)
        said, status = ("", 0) if self.is_proved and os.listdir(self.seed) else kit.check(self.crate, {}, self.seed)
        if status:
            self.failure = f"it isn't proved as it stands, so none of its edits was tried:\n{said[-1500:]}"
            return []
        self.files = kit.listing(self.seed)
        return [self.step(it) for it in self.rounds]

    @property
    def seed(self):
        return f"{self.room}/seed"

    def step(self, edits):
        return lambda: self.safely(self.try_alone, edits[0]) if len(edits) == 1 else self.safely(self.try_round, edits)

    @contextlib.contextmanager
    def over_the_seed(self):
        """Gives the folder of a copy of the seed, for one check."""
        over = tempfile.mkdtemp(prefix="over-", dir=self.room)
        try:
            kit.linked(self.seed, f"{over}/kept")
            yield f"{over}/kept"
        finally:
            shutil.rmtree(over, ignore_errors=True)

    def try_round(self, edits):
        """Tries edits of different functions at once, and returns what is to be tried again: each that the check didn't name, alone,
        and all others without one that spoils the round."""
        texts, begun = made(edits), time.time()
        with self.over_the_seed() as over:
            said, status = kit.check(self.crate, texts, over)
        is_spoilt = status != 0 and (not verdicts.has_verdict(said, status) or self.has_unread(said, texts))
        found = [] if is_spoilt else verdicts.refused_by(edits, said, status)
        refused = {it.edit for it in found}
        for it in refused:
            self.conclude(it, REFUSED, "refused", [one for one in found if one.edit is it])
        left = [it for it in edits if it not in refused]
        again = parts_of(left, verdicts.blamed(left, said)) if is_spoilt else [[it] for it in left]
        self.note(self, edits, f"{len(refused)} refused", again, said, time.time() - begun)
        return [self.step(it) for it in again]

    def has_unread(self, said, texts):
        return any(kit.is_unread(line, texts) for line in said.split("\n"))

    def try_alone(self, edit):
        """Tries an edit as `rt must-fail` does: what meets a limit is tried once more with more room, and what isn't refused over the seed
        once more from nothing."""
        begun = time.time()
        kind, text, said = self.tried_over_the_seed(edit)
        if kind == LIMIT:
            kind, text, said = self.tried_over_the_seed(edit, kit.MORE_ROOM)
        if kind in (MISSED, UNSURE):
            whole = kit.try_alone(self.crate, edit.file, None)
            kind, text, said = (kind, text, said) if kind == MISSED and whole[0] == UNSURE else whole
        self.conclude(edit, kind, text, verdicts.refused_alone(edit, said) if kind == REFUSED else [])
        self.note(self, [edit], f"{edit.name} alone: {self.results[edit][0]}", [], said, time.time() - begun)
        return []

    def tried_over_the_seed(self, edit, more=()):
        with self.over_the_seed() as over:
            return kit.try_alone(self.crate, edit.file, over, more)

    def conclude(self, edit, kind, text, found):
        """Notes what an edit came to. One that no goal refuses has to be listed, and no other may be."""
        if kind == REFUSED and not found and edit.name in self.listed:
            found = [verdicts.Verdict(edit, *NOWHERE)]
        elif kind == REFUSED and not found:
            kind, text = WEAK, f"no goal of the function that it changes refuses it: choose another change, or list it in tools/weak-mutants: {text}"
        elif kind == REFUSED and edit.name in self.listed:
            kind, text, found = LISTED, "a goal of the function that it changes refuses it, so tools/weak-mutants may not have it", []
        self.results[edit] = (TOLD if self.is_waiting and kind in (WEAK, LIMIT) else kind, text)
        self.verdicts += found

    def end(self):
        """Ends the try: looks whether a check wrote into what the others read, and removes the copies."""
        if not self.failure and kit.listing(self.seed) != self.files:
            self.failure = "what its own check left was changed meanwhile: try it again"
        shutil.rmtree(self.room or "", ignore_errors=True)
        self.is_over = True

    @property
    def failed(self):
        """Returns the edits that aren't refused, each with its kind and what is said of it."""
        lost = [(it, *self.results.get(it, (UNSURE, "not tried"))) for it in self.edits]
        return [it for it in lost if it[1] not in (REFUSED, TOLD)]

    @property
    def told(self):
        """Returns the edits that are told alone, each with what is said of it."""
        return [(it, text) for it, (kind, text) in self.results.items() if kind == TOLD]
