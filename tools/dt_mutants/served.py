"""What a crate serves to the crates above it: all that a check of those can read of it.

A check reads of the libraries below the signatures, contracts, types and constants of their sources, their specs, and the statements of
their lemmas. It never reads the body of a function, nor the proof that the function meets its contract, nor anything of a function that
isn't `pub`: the toolchain builds its libraries without them. Neither does it read a comment. Of a definition in the specs it can read
nothing if no text that it reads has its name, and of a file of lemmas nothing if none has the name of its module.
"""
import os
import re

from dt_mutants.functions import TOKEN, functions_of

# The files of a function's own proof, in a folder of its path below proofs/. All other files there are lemmas.
OWN_PROOFS = ("Answers.antt", "Invariants.antt", "Proof.antt")
# A function whose body may be computed where it is named.
CONSTANT = re.compile(r"\bconst\s+(?:unsafe\s+)?fn\b")
# A source whose macros may write functions: what they write depends on all of it.
MACROS = re.compile(r"\bmacro_rules\b")
# What lets other crates call a function.
PUBLIC = re.compile(r"\bpub\b(?!\s*\()")
# A block at a line's start whose functions need no `pub`: a trait, or the impl of one.
OF_TRAIT = re.compile(r"(?:pub\s+|unsafe\s+)*(?:trait\b|impl\b[^{]*\bfor\b)", re.S)
BLOCK = re.compile(r"(?m)^(?:[a-z][^\n{;]*(?:\n[^\n{;]+)*)\{|^\}")
# An import of names: in a source, and in a file of definitions.
IMPORT = re.compile(r"(?m)^\s*(?:ghost )?use ([\w.]+)\.\{([^{}]*)\};?[ \t]*\n")
# The line that declares a file.
MODULE = re.compile(r"(?m)^(?:pub )?mod \w+[ \t]*\n")
# What declares a definition or a lemma, what an equation of one begins with, and what goes on with one at a line's start.
DECLARED = re.compile(r"(?:(?:abbrev|unfoldable|record|pub) )+(?!data\b|use\b|mod\b|module\b)(\w+)|(\w+)[\w-]* :")
EQUATION = re.compile(r"\w+")
GOES_ON = re.compile(r"\s|[)}\]]|unfolding\b")
# How the tactics of a function's own proof are named.
TACTIC = re.compile(r"#!?\[tactic\((?:[^()]|\((?:[^()]|\([^()]*\))*\))*\)\]")
WORD = re.compile(r"\w+")
LINE_COMMENT = re.compile(r"(?m)^\s*(?:--|//).*$")
# What has a name of a private function's contract in it.
CONTRACTS = re.compile(r"\bspecs\.contracts\b")


class Crate:
    """The files of a crate, by their paths in its folder, as bytes. `above` are the words by which crates above it name parts of it."""

    def __init__(self, files, above=frozenset()):
        texts = {path: MODULE.sub("", data.decode(errors="surrogateescape")) for path, data in files.items()}
        lemmas = of_lemmas({path: it for path, it in texts.items() if path.startswith("proofs/") and not is_own_proof(path)}, above)
        is_whole = any(CONTRACTS.search(it) for it in lemmas.values())
        sources = {path: data.decode(errors="surrogateescape") for path, data in files.items() if path.startswith("src/") and path.endswith(".rt")}
        exported = exported_by(sources.values())
        sources = {path: of_source(path, it, is_whole, exported) for path, it in sources.items()}
        specs = {path: it for path, it in texts.items() if path.startswith("specs/")}
        known = set(above).union(*map(WORD.findall, sources.values()))
        self.parts = {**sources, **of_definitions({**specs, **lemmas}, known)}

    def served(self):
        """Returns what the crate serves, by file, in the order of their paths."""
        return [(path, self.parts[path]) for path in sorted(self.parts) if self.parts[path].strip()]


def of_lemmas(texts, above):
    """Returns the files of lemmas whose modules the crates above name, or that are named by one that counts."""
    kept, new = {}, [path for path in texts if module_of(path) in above]
    while new:
        kept.update({it: texts[it] for it in new})
        words = set().union(*(WORD.findall(texts[it]) for it in new))
        new = [path for path in texts if path not in kept and module_of(path) in words]
    return kept


def module_of(path):
    """Returns the name of a file's module."""
    return os.path.basename(path).partition(".")[0]


def named_in(text, crate):
    """Returns the words of a file of another crate that may name a definition or a lemma of a crate, or a module of those."""
    if f"Rattle.{crate}." not in text and f"{crate}::" not in text:
        return set()
    text = LINE_COMMENT.sub("", text)
    at = re.escape(crate)
    names = re.findall(rf"\bRattle\.{at}\.([\w.-]+\.\{{[^{{}}]*\}})", text)
    names += re.findall(rf"\b{at}::((?:specs|proofs)::[\w:-]+)", text)
    modules = re.findall(rf"\bRattle\.{at}\.([\w.-]*\w)(?!\.?\{{)(?![\w.-])(?: as (\w+))?", text)
    for path, alias in modules:
        names += [path, *re.findall(rf"\b{alias or path.rpartition('.')[2]}\.(\w+)", text)]
    # (what is named in another form may have any name)
    is_known = text.count(f"Rattle.{crate}.") == len(modules) + len(re.findall(rf"\bRattle\.{at}\.[\w.-]+\.\{{", text))
    return set(WORD.findall(" ".join(names) if is_known else text))


def is_own_proof(path):
    """Returns whether a file has the proof of a function."""
    return path.startswith("proofs/") and path.count("/") > 1 and os.path.basename(path) in OWN_PROOFS


def exported_by(sources):
    """Returns the names that sources export of their modules, a star for all of one, and the modules that they export whole."""
    found = set()
    for it in map(without_comments, sources):
        for names in re.findall(r"\bpub use\b([^;]*);", it):
            found.update(re.findall(r"\w+|\*", re.sub(r"\w+\s*::", "", names)))
        found.update(f"mod {name}" for name in re.findall(r"\bpub mod (\w+)", it))
    return found


def of_source(path, text, is_whole=False, exported=("*",)):
    """Returns a source without comments and without the bodies of its functions, and, unless `is_whole`, without functions that no other
    crate can call and without names that only those import."""
    if MACROS.search(text):
        return text
    parts, at, of_traits = [], 0, blocks_of_traits(text)
    for it in functions_of(path, text):
        start = line_start(text, it.first)
        if is_constant(text, it):
            parts.append(text[at : it.begin])
            at = it.begin
        elif is_whole or (is_callable(text[start : it.begin], start, of_traits) and (it.owner or is_exported(path, it.name, exported))):
            parts.append(text[at : it.begin] + "{}")
            at = it.end
        else:
            parts.append(text[at:start])
            at = it.end
    left = TACTIC.sub("", without_comments("".join([*parts, text[at:]])))
    return plain(left if is_whole else with_used_imports(left))


def plain(text):
    """Returns a text with its words parted by single spaces."""
    return " ".join(text.split())


def line_start(text, number):
    """Returns where a line begins, of those counted from 1."""
    at = 0
    for _ in range(number - 1):
        at = text.index("\n", at) + 1
    return at


def blocks_of_traits(text):
    """Returns from where to where the traits and impls of traits reach that begin at a line's start."""
    found, begun = [], None
    for it in BLOCK.finditer(text):
        if it[0] == "}":
            if begun is not None:
                found.append((begun, it.start()))
            begun = None
        elif OF_TRAIT.match(it[0]):
            begun = it.start()
    return found


def is_callable(head, at, of_traits):
    """Returns whether another crate can call the function with this text before its body."""
    if any(begin < at < end for begin, end in of_traits):
        return True
    return bool(PUBLIC.search(re.split(r"\bfn\b", without_comments(head))[0]))


def is_exported(path, name, exported):
    """Returns whether the crate exports a public function of this name that stands in no block."""
    module = module_of(path)
    return module in ("lib", "main") or not {"*", name, f"mod {module}"}.isdisjoint(exported)


def is_constant(text, function):
    """Returns whether the function is a `const fn`."""
    head = text.rfind(f"fn {function.name}", 0, function.begin)
    return bool(CONSTANT.search(text[max(head - len("const unsafe "), 0) : head + len("fn")]))


def without_comments(text):
    return TOKEN.sub(lambda it: " " if it[0].startswith(("//", "/*")) else it[0], text)


def with_used_imports(text):
    """Returns a text whose imports have the names alone that are used in the rest of it."""
    rest = IMPORT.sub("\n", text)
    words = set(WORD.findall(rest))

    def is_used(name):
        parts = [it for it in name.split(" as ")[-1].split("◌") if it]
        return all(it in words if WORD.fullmatch(it) else it in rest for it in parts)

    def used(found):
        names = [it for it in map(str.strip, found[2].split(",")) if it and is_used(it)]
        return f"\n{found[1]}.{{{', '.join(names)}}}\n" if names else "\n"

    return IMPORT.sub(used, text)


def of_definitions(texts, known):
    """Returns the definitions and lemmas of files that have a known name, or are named by one that counts, by file."""
    pieces = {path: pieces_of(text) for path, text in texts.items()}
    every = [it for of in pieces.values() for it in of]
    kept, known, new = set(), set(known), [it for it in every if not it.name]
    while new:
        kept.update(new)
        known.update(*(WORD.findall(it.text) for it in new if not it.is_import))
        new = [it for it in every if it not in kept and it.name in known]
    return {path: plain(with_used_imports("".join(it.text for it in of if it in kept))) for path, of in pieces.items()}


class Piece:
    """A part of a file of definitions or lemmas. It has the first word of the name of its definition, or none if it counts in any case."""

    def __init__(self, name, text):
        self.name, self.text = name, text
        self.is_import = text.startswith("use ")


def pieces_of(text):
    """Returns the parts of a file of definitions or lemmas that begin at a line's start, without the lines of comments."""
    found, declared = [], set()
    for line in re.sub(r"(?m)^[ \t]*--.*\n", "", text).splitlines(True):
        if found and GOES_ON.match(line):
            found[-1].text += line
        elif line.strip():
            head, equation = DECLARED.match(line), EQUATION.match(line)
            name = (head[1] or head[2]) if head else equation[0] if equation and equation[0] in declared else ""
            declared.update([name] if head else [])
            found.append(Piece(name, line))
    return found
