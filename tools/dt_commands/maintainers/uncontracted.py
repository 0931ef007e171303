"""The public functions of the product that have no `ensures`: which crates have them, and how many. docs/PROVED.md lists them."""
import re

from dt_commands import sources
from dt_mutants.functions import functions_of

PUBLIC = re.compile(r"^ *pub (?:const )?fn ", re.M)
ENSURES = re.compile(r"^ *ensures\*?\b", re.M)


def public_heads(file, text):
    """Yields the heads of a source's public functions, each from its first line to its body."""
    lines = text.splitlines(True)
    for function in functions_of(file, text):
        head = text[len("".join(lines[: function.first - 1])) : function.begin]
        if PUBLIC.search(head):
            yield head


def counted(file, text):
    """Returns how many public functions a source has, and how many of them have no `ensures`."""
    heads = list(public_heads(file, text))
    return len(heads), sum(not ENSURES.search(it) for it in heads)


def told(counts):
    """Returns the sentence about crates with these counts, each of public functions and of those without `ensures`."""
    every, without = (sum(it[at] for it in counts.values()) for at in (0, 1))
    if not without:
        return f"All {every} public functions of the product have `ensures`.\n"
    listed = ", ".join(f"`{name}` ({count})" for name, (_, count) in counts.items() if count)
    said = f"Of {every} public functions of the product {without} have no `ensures`: {listed}. Nothing else is proved of these."
    return f"{said}\n"


def listed():
    """Returns the sentence for the product's crates, in the order of crates.txt."""
    counts = {it: [0, 0] for it in sources.product()}
    for file, text in sources.of_product("src", ".rt"):
        crate = sources.crate_of(file)
        counts[crate] = [old + new for old, new in zip(counts[crate], counted(file, text))]
    return told(counts)
