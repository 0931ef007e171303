"""The definitions that the headline needs: a walk from its contracts over the names that each definition uses."""
import os
import re

from .repository import TOP, crates
from .sources import below
from .texts import read_text

# The functions that carry the headline, by crate: the call that the program makes, and those of the library beside it.
PROGRAM = [("command_line", "perform")]
LIBRARY = [("runtime", "run"), ("runtime", "run_into"), ("runtime", "run_recorded")]

NAME = re.compile(r"[^\W\d]\w*'*(?:\.[^\W\d]\w*'*)*")
HEAD = re.compile(r"^(?:(?:abbrev|unfoldable)(?: pub)?|pub record|record|pub data|data) ([^\W\d]\w*'*)", re.M)


def without_comments(text):
    return re.sub(r"(--|//).*", "", text)


def imported(text):
    """Returns what the `use` lines of a text name: items by their local names, and modules by their aliases."""
    items, modules = {}, {}
    for path, braces, alias in re.findall(r"^\s*(?:ghost |pub )?use Rattle\.([\w.]+?)(?:\.\{([^}]*)\}| as (\w+));?\s*$", text, re.M):
        module = tuple(path.split("."))
        if alias:
            modules[alias] = module
        for item in filter(None, (it.strip() for it in braces.split(","))):
            name, _, local = item.partition(" as ")
            items[local or name] = (module, name)
    return items, modules


class Module:
    """A file of specs/: its definitions, each with its text, and what it imports."""

    def __init__(self, crate, file):
        self.file = file
        text = read_text(file)
        self.items, self.modules = imported(text)
        self.texts = {}
        heads = list(HEAD.finditer(text))
        for head, following in zip(heads, heads[1:] + [None]):
            body = text[head.start():following.start() if following else len(text)]
            self.texts[head[1]] = without_comments(body)

    def lines(self, name):
        return sum(1 for it in self.texts[name].split("\n") if it.strip())


def modules():
    """Returns all modules by their paths, as `use` lines name them."""
    found = {}
    for crate in crates():
        folder = f"{TOP}/crates/{crate}/specs"
        for file in below(folder, ".antt"):
            path = os.path.relpath(file, folder)[:-len(".antt")].replace("/", ".")
            found[(crate, "specs", *path.split("."))] = Module(crate, file)
    return found


def used(text, items, aliases, own, path):
    """Returns what the names in a text refer to: (module, name) each. A label of a record's field refers to nothing."""
    found = set()
    for match in NAME.finditer(text):
        if re.match(r" = ", text[match.end():match.end() + 3]) and text[:match.start()].rstrip()[-1:] in "{;":
            continue
        first, _, rest = match[0].partition(".")
        if first in aliases and rest:
            found.add((aliases[first], rest.split(".")[0]))
        elif first in items:
            found.add(items[first])
        elif first in own:
            found.add((path, first))
    return found


def contract(crate, function):
    """Returns the contract of a public function and what it refers to; None if the crate has no such function."""
    for file in below(f"{TOP}/crates/{crate}/src", ".rt"):
        text = read_text(file)
        head = re.search(rf"^pub fn {function}\b.*?^\{{", text, re.M | re.S)
        if head:
            clauses = re.findall(r"^    (?:requires|ensures).*?(?=^    (?:requires|ensures)|\Z|^\{)", head[0], re.M | re.S)
            items, aliases = imported(text)
            return used(without_comments("".join(clauses)), items, aliases, {}, None)
    return None


def seeds(carriers):
    found = set()
    for crate, function in carriers:
        named = contract(crate, function)
        if named is None:
            raise SystemExit(f"{crate} has no public function {function}")
        found |= named
    return found


def needed(carriers, every):
    """Returns the definitions that the contracts of some functions need, by module, and the types of the sources, by crate."""
    todo = seeds(carriers)
    definitions, types = set(), set()
    while todo:
        path, name = todo.pop()
        if len(path) > 2 and path[1:3] == ("specs", "declared"):
            types.add((path[0], path[4] if len(path) > 4 else name))
        elif path in every and name in every[path].texts and (path, name) not in definitions:
            module = every[path]
            definitions.add((path, name))
            todo |= used(module.texts[name], module.items, module.modules, module.texts, path)
        elif path in every and name in every[path].items:
            todo.add(every[path].items[name])
    return definitions, types


def listed():
    """Returns the lists as a part of a page: of what the law and the library need, and of what the program's call needs besides."""
    every = modules()
    of_library, of_program = needed(LIBRARY, every), needed(PROGRAM, every)
    besides = [more - own for own, more in zip(of_library, of_program)]
    count = sum(len(it.texts) for it in every.values())
    return (
        f"Of {count:,} definitions, the law and `run` need {counted(of_library[0], every)}. Lowest crates first:\n\n"
        f"{lines_of(*of_library, every)}\n`perform` needs another {counted(besides[0], every)}. Most of them are for the texts of a run:\n\n"
        f"{lines_of(*besides, every)}"
    )


def counted(definitions, every):
    lines = sum(every[path].lines(name) for path, name in definitions)
    return f"{len(definitions)} ({lines:,} lines without comments)"


def lines_of(definitions, types, every):
    """Returns a line for each crate that has some of these definitions or types, and for each file of its specs/ that has some."""
    text = ""
    for crate in crates():
        own = sorted({path for path, _ in definitions if path[0] == crate})
        of_types = sorted({name for it, name in types if it == crate})
        if not own and not of_types:
            continue
        text += f"- `{crate}`\n"
        for path in own:
            names = [it for it in every[path].texts if (path, it) in definitions]
            text += f"  - {'/'.join(path[2:])}: {', '.join(names)}\n"
        if of_types:
            text += f"  - types of the source: {', '.join(of_types)}\n"
    return text
