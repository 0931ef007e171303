"""The wrong bodies that have a name, as tools/named-bodies lists them: of each its name, what is wrong, and its edits.

Those of the run itself are in must-fail/ of their crates, all others in mutants/.
"""
import glob
import os

from .repository import TOP


def edits(kind):
    """Returns the edits of all crates in the folder must-fail or mutants: the crates of each, by its name."""
    found = {}
    for path in sorted(glob.glob(f"{TOP}/crates/*/{kind}/*.edit")):
        crate, _, file = os.path.relpath(path, f"{TOP}/crates").split("/")
        found.setdefault(file[:-len(".edit")], []).append(crate)
    return found


def table():
    """Returns the table of named bodies. Each edit that it names is there, and each must-fail edit is named."""
    must_fail, named = edits("must-fail"), set()
    there = {**edits("mutants"), **must_fail}
    text = "| Name | Wrong body | Edits |\n|---|---|---|\n"
    with open(f"{TOP}/tools/named-bodies", encoding="utf-8") as lines:
        for line in lines:
            name, body, words = (it.strip() for it in line.split("|"))
            missing = [it for it in words.split() if it not in there]
            if missing:
                raise SystemExit(f"tools/named-bodies: no crate has an edit {missing[0]}.edit")
            named |= set(words.split())
            places = [f"`{crate}/{it}`" for it in words.split() for crate in there[it]]
            text += f"| {name} | {body} | {', '.join(places)} |\n"
    if set(must_fail) - named:
        raise SystemExit(f"tools/named-bodies doesn't name must-fail edits: {', '.join(sorted(set(must_fail) - named))}")
    return text
