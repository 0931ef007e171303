"""What the commands share: the folders of the checkout, and the crates as crates.txt lists them."""
import os

TOP = os.path.dirname(os.path.dirname(os.path.dirname(os.path.abspath(__file__))))


def crates():
    """Returns the crates of crates.txt in its order: of each its name and the names that it depends on, of this repository or the kit."""
    found = {}
    with open(f"{TOP}/crates.txt", encoding="utf-8") as lines:
        for line in lines:
            head, colon, uses = line.partition("#")[0].partition(":")
            if colon:
                found[head.split()[0]] = uses.split()
    return found


def below(name):
    """Returns the crates of this repository that a crate depends on, itself among them, each after those that it depends on."""
    every, order = crates(), []

    def visit(it):
        if it in every and it not in order:
            for other in every[it]:
                visit(other)
            order.append(it)

    visit(name)
    return order
