"""Functions of the product that the program never calls.

The program calls what its `main` calls, and so on, and the functions of every `impl` of a trait, since the names of these are called by others.
A name is looked up among the crates that its crate depends on: `.name(` among methods, a name alone among the functions of its file and those
that the file imports, and `..::name` among all. So a method counts as called if any method of its name is. Prints each function that is not
called and that tools/uncalled doesn't have, as CRATE/TYPE::NAME, and each line there that is called or gone, and ends with 1 if there is any.
What only a function of that list calls counts as called.
"""
import collections
import re

from . import exceptions, sources
from .repository import below
from dt_mutants.functions import functions_of

USE = re.compile(r"(?m)^ *(?:pub(?:\(\w+\))? )?use [^;]*;")
# A name with what is before it, and with what opens its arguments, if it is called. The name of a module is none.
NAMED = re.compile(r"((?<!\.)\.|::|\b(?:fn|mod) )?\b([a-z_]\w*)\b(?!::[^<])(?=(\(|::<)?)")
# What calls methods without being code: the texts of errors.
ERROR_TEXT = re.compile(r"#\[error\(.*?\)\]", re.S)
BLOCK = re.compile(r"(?m)^(?:pub(?:\(\w+\))? )?(impl|trait)\b([^\n{]*)")
LIST = "uncalled"


class Part:
    """A function of a source, or, without a name, what is outside of them: what it names, and what it can see."""

    def __init__(self, file, imports, code, owner="", name="", of_trait=False):
        self.file, self.crate, self.imports = file, sources.crate_of(file), imports
        self.owner, self.name, self.of_trait = owner, name, of_trait
        self.named = {(mark, it) for mark, it, called in NAMED.findall(code) if mark[-1:] != " " and (mark != "." or called)}

    @property
    def label(self):
        return f"{self.crate}/{self.owner}::{self.name}" if self.owner else f"{self.crate}/{self.name}"

    def may_call(self, mark, other, lower):
        """Whether what this part names, after this mark, may be another function of the name, if its crate sees these."""
        if other.crate not in lower:
            return False
        if mark:
            return mark == "::" or bool(other.owner)
        return not other.owner and (other.file == self.file or other.name in self.imports)


def is_of_trait(text, function):
    """Whether a function is in a trait or in the `impl` of one."""
    block = max(BLOCK.finditer(text, 0, function.begin), key=lambda it: it.start(), default=None)
    return bool(function.owner and block) and (block[1] == "trait" or re.search(r"\bfor \w", block[2]) is not None)


def parts_of(file, text):
    """Returns the parts of a source: its functions, and what is outside of them."""
    code, imports = sources.code_of(text), set(re.findall(r"\w+", " ".join(USE.findall(text))))
    parts, outside, at = [], " ".join(ERROR_TEXT.findall(text)), 0
    for it in functions_of(file, text):
        parts.append(Part(file, imports, code[it.begin : it.end], it.owner, it.name, is_of_trait(text, it)))
        outside, at = outside + code[at : it.begin], it.end
    return [*parts, Part(file, imports, outside + code[at:])]


def uncalled(parts, lower, listed=()):
    """Returns the parts that none of the others reaches from those that begin, if a crate sees these below it."""
    by_name = collections.defaultdict(list)
    for it in parts:
        by_name[it.name].append(it)
    todo = [it for it in parts if it.name in ("", "main") or it.of_trait or it.label in listed]
    reached = set(todo)
    while todo:
        caller = todo.pop()
        for mark, name in caller.named:
            more = {it for it in by_name[name] if it not in reached and caller.may_call(mark, it, lower[caller.crate])}
            reached |= more
            todo += more
    return [it for it in parts if it not in reached]


def check(options):
    """Checks that the program calls each function of the product, but for those of a list."""
    parts = [it for file, text in sources.of_product("src", ".rt") for it in parts_of(file, text)]
    lower = {it: set(below(it)) for it in sources.product()}
    listed = exceptions.places(LIST)
    without = {it.label for it in uncalled(parts, lower)}
    found = [it.label for it in uncalled(parts, lower, listed)] + sorted(without & set(listed))
    wrong = exceptions.differences(LIST, found)
    for it in wrong:
        print(it)
    print(f"{len(parts):,} functions and files of the product, {len(found)} that nothing calls, {len(wrong)} differences from tools/{LIST}")
    return 1 if wrong or not parts else 0
