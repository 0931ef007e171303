"""Lists of places that a check lets pass: files of tools/, each line of which is `PLACE` or `PLACE: WHY`."""
import collections

from .repository import TOP


def places(name):
    """Returns how often a list has each place."""
    with open(f"{TOP}/tools/{name}", encoding="utf-8") as lines:
        return collections.Counter(it.partition(": ")[0].strip() for it in lines if it.strip() and not it.startswith("#"))


def differences(name, found):
    """Returns a line for each place that was found and that the list doesn't have, and for each that it has and that is gone."""
    listed, found = collections.Counter(places(name)), collections.Counter(found)
    new = [f"{it}: tools/{name} doesn't have it" for it in (found - listed).elements()]
    return new + [f"{it}: it is gone, so it must leave tools/{name}" for it in (listed - found).elements()]
