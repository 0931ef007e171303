"""An edit: a small change of a crate's files, which the prover has to refuse. It is read here, and made on texts."""
import functools
import os

from collections import Counter

from dt_mutants.functions import changed_functions, functions_of

# The folders of a crate that an edit may name, which are those that a check reads.
PARTS = ("src/", "specs/", "proofs/")


class BadEdit(Exception):
    """Says why an edit can't be made."""


def pairs_of(text):
    """Returns the pairs of an edit's text, each a file, the text to find there and the text to put in its place."""
    path, old, pairs = "", None, []
    for line in text.split("\n"):
        if line.startswith("file: "):
            path = line[len("file: ") :].strip()
            if os.path.normpath(path) != path or not path.startswith(PARTS):
                raise BadEdit("a 'file:' line names no file below src/, specs/ or proofs/")
        elif line.startswith("old: "):
            old = line[len("old: ") :]
        elif line.startswith("new:"):
            if not path or not old:
                raise BadEdit("a 'new:' line stands before any 'file:' or 'old:' line")
            pairs.append((path, old, line[len("new: ") :]))
            old = None
    if not pairs:
        raise BadEdit("it has no 'old:' and 'new:' pair")
    return pairs


class Edit:
    """One edit. `places` are the functions whose bodies alone it changes; None says that it changes something else too.
    `labels` returns how many functions of the crate have each label."""

    def __init__(self, crate, file, folder, labels):
        self.crate, self.file, self.folder, self.labels = crate, file, folder, labels
        self.name, ending = os.path.splitext(os.path.basename(file))
        self.pairs, self.changes, self.why = [], {}, None
        try:
            if ending != ".edit":
                raise BadEdit("an edit's name ends in .edit (or in .md, if it is only to be read)")
            self.pairs = pairs_of(text_of(file))
            self.changes = {path: text for path, text in made([self]).items() if text != self.before(path)}
            if not self.changes:
                raise BadEdit("it changes nothing")
        except BadEdit as why:
            self.why = str(why)

    @functools.cached_property
    def places(self):
        found = []
        for path, text in self.changes.items():
            functions = changed_functions(path, self.before(path), text) if path.endswith(".rt") else None
            if not functions:
                return None
            found += functions
        for it in found:
            it.is_unique = self.labels()[it.label] == 1
        return found

    def before(self, path):
        return text_of(f"{self.folder}/{path}")

    @property
    def keys(self):
        return {it.key for it in self.places}

    def __repr__(self):
        return f"{self.crate}/{self.name}"


def text_of(file):
    """Returns what a file holds."""
    if not os.path.isfile(file):
        raise BadEdit(f"there is no file {os.path.basename(file)}")
    with open(file, encoding="utf-8") as it:
        return it.read()


def made(edits):
    """Returns the texts of the files that these edits of one crate change, by their paths, all made one after the other."""
    texts = {}
    for edit in edits:
        for path, old, new in edit.pairs:
            text = texts.get(path) or edit.before(path)
            if text.count(old) != 1:
                raise BadEdit(f"an 'old:' text is in {path} {text.count(old)} times, and not once")
            texts[path] = text.replace(old, new)
    return texts


def edits_of(crate, folder, kind="mutants"):
    """Returns the mutants of the crate in this folder, or its edits of another kind, by their names."""
    at = f"{folder}/{kind}"
    names = sorted(it for it in os.listdir(at) if not it.endswith(".md")) if os.path.isdir(at) else []
    labels = functools.lru_cache(maxsize=None)(lambda: labels_of(folder))
    return [Edit(crate, f"{at}/{it}", folder, labels) for it in names]


def labels_of(folder):
    """Returns how many functions of a crate have each label, which is the type's name and the function's."""
    files = [f"{at}/{name}" for at, _, names in os.walk(f"{folder}/src") for name in names if name.endswith(".rt")]
    return Counter(it.label for file in files for it in functions_of(os.path.relpath(file, folder), text_of(file)))
