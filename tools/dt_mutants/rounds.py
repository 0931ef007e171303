"""Plans the rounds of a crate: which of its edits are made at once."""
from collections import Counter

from dt_mutants.edits import BadEdit, made


def can_join(edit, others):
    """Returns whether an edit can be made beside others: of other functions, and each still finds the text that it replaces."""
    if any(edit.keys & other.keys for other in others):
        return False
    try:
        made([*others, edit])
    except BadEdit:
        return False
    return True


def plan(edits):
    """Returns the rounds of a crate's edits, as lists of edits. Those of a function are in different rounds; one that changes something
    else than a function's body has a round of its own. There are as many rounds as the most edits of a function, and they are of about
    one size: a check takes a few seconds for itself, and then as many for each edit."""
    alone = [[it] for it in edits if it.places is None]
    joined = [it for it in edits if it.places is not None]
    count = Counter(key for it in joined for key in it.keys)
    most = lambda edit: max(count[key] for key in edit.keys)
    rounds = [[] for _ in range(max(count.values(), default=0))]
    for edit in sorted(joined, key=lambda it: (-most(it), repr(it))):
        free = [it for it in rounds if can_join(edit, it)]
        if free:
            min(free, key=len).append(edit)
        else:
            rounds.append([edit])
    return [*rounds, *alone]
