"""Finds the functions of a source file: where each stands, and where its body begins and ends. It reads text alone."""
import re

# What the scan looks at: comments, texts, characters, brackets, and the words that begin something.
TOKEN = re.compile(
    r"""//[^\n]*|/\*.*?\*/|b?"(?:\\.|[^"\\])*"|b?'(?:\\[^'\n]+|[^\\'\n])'|[{}()\[\];]|\bfn\s+\w+""",
    re.S,
)
# What stands before a brace that opens a clause, and not a body.
CLAUSE = re.compile(r"(?:\b(?:requires|ensures)\*?(?:\s+\w+)?|\bghost\s+\w+\s*:)\s*\Z")
IMPL = re.compile(r"\bimpl\b\s*(?:<[^{;]*?>\s*)?(?:(?P<of>(?:\w+::)*\w+)(?P<over><.*>)?\s+for\s+)?&?(?:\w+::)*(?P<type>\w+)", re.S)
# The types that a trait is over: each name, which stands in an impl's name without its path, and the unit.
OVER = re.compile(r"\(\)|(?<!')\b(?:\w+::)*(\w+)")
TRAIT = re.compile(r"\btrait\s+(?P<type>\w+)")


class Function:
    """A function with a body. `owner` is its type, with the trait's name and that of what it is over behind it in the impl of a trait, or
    nothing."""

    def __init__(self, file, owner, name, start, begin, end, text):
        self.file, self.owner, self.name = file, owner, name
        # the body is text[begin:end], its braces among it; the first line is that of the comment or attribute above the head
        self.begin, self.end = begin, end
        self.first, self.last = text.count("\n", 0, start) + 1, text.count("\n", 0, end) + 1
        self.body = text[begin:end]
        # whether no other function of the crate has its label, so that its name alone tells it
        self.is_unique = False

    @property
    def key(self):
        return self.file, self.first, self.owner, self.name

    @property
    def label(self):
        return f"{self.owner}::{self.name}" if self.owner else self.name


def owner_of(header):
    """Returns the name under which the methods of a block stand, or nothing where the block is no impl and no trait."""
    header = re.sub(r"//[^\n]*", "", header)
    found = IMPL.search(header)
    if found:
        over = "".join(it[1] or "Unit" for it in OVER.finditer(found["over"] or ""))
        return found["type"] + (found["of"] or "").rpartition("::")[2] + over
    found = TRAIT.search(header)
    return found["type"] if found else ""


class Scan:
    """One pass over a source file."""

    def __init__(self, file, text):
        self.file, self.text, self.found = file, text, []
        # the owners of the open blocks; the function whose head is read; and the brackets that are open within it
        self.blocks, self.head, self.open, self.since = [], None, [], 0

    def run(self):
        for it in TOKEN.finditer(self.text):
            token, at = it[0], it.start()
            if token.startswith("fn") and self.head is None:
                self.head, self.open = (re.split(r"\s+", token)[1], at), []
            elif token in "{}()[];" and self.head is None:
                self.outside(token, at)
            elif token in "{}()[];":
                self.inside(token, at)
        return self.found

    def outside(self, token, at):
        """Keeps account of the blocks that functions stand in."""
        if token == "{":
            self.blocks.append(owner_of(self.text[self.since : at]))
        elif token == "}" and self.blocks:
            self.blocks.pop()
        if token in "{};":
            self.since = at + 1

    def inside(self, token, at):
        """Reads on in a function: its head, its clauses and its body."""
        if token in "{([":
            is_body = token == "{" and not self.open and not CLAUSE.search(self.text[self.head[1] : at])
            self.open.append(at if is_body else None)
        elif token in "})]" and self.open:
            begin = self.open.pop()
            if begin is not None and not self.open:
                self.end(begin, at + 1)
        elif token == ";" and not self.open:
            # (a function without a body, as a trait declares it)
            self.head, self.since = None, at + 1

    def end(self, begin, end):
        name, head = self.head
        owner = next((it for it in reversed(self.blocks) if it), "")
        start = self.since + len(self.text[self.since : head]) - len(self.text[self.since : head].lstrip())
        self.found.append(Function(self.file, owner, name, start, begin, end, self.text))
        self.head, self.since = None, end


def functions_of(file, text):
    """Returns the functions with a body that a source file has, in its order. One that stands in another is part of that one."""
    return Scan(file, text).run()


def outside_of(text, functions):
    """Returns what a source file has outside the bodies of its functions."""
    parts, at = [], 0
    for it in functions:
        parts.append(text[at : it.begin])
        at = it.end
    return [*parts, text[at:]]


def changed_functions(file, before, after):
    """Returns the functions whose bodies alone differ between two texts of a file, or None where something else does."""
    old, new = functions_of(file, before), functions_of(file, after)
    if outside_of(before, old) != outside_of(after, new):
        return None
    return [it for it, other in zip(old, new) if it.body != other.body]
