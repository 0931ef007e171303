"""Directives of GCC's own test programs: what their comments `{ dg-NAME WORDS }` say for a machine.

https://gcc.gnu.org/onlinedocs/gccint/Directives.html describes them. Directives that look at the compiler's own files, as dg-final, are
none of those that are read here.
"""
import fnmatch
import re

DIRECTIVE = re.compile(r"\{\s*dg-([a-z-]+)\s+(.*)\}")
TOKEN = re.compile(r"&&|\|\||[!{}]|[^\s{}!&|]+")


def words_of(text):
    """Returns the words of a directive: a text in quotes or braces is one, without them."""
    found, at = [], 0
    while at < len(text):
        if text[at].isspace():
            at += 1
        elif text[at] in "\"{":
            end = end_of(text, at)
            found.append(text[at + 1 : end])
            at = end + 1
        else:
            end = re.compile(r"\S+").match(text, at).end()
            found.append(text[at:end])
            at = end
    return found


def end_of(text, at):
    """Returns the place of what closes the quote or the brace at a place."""
    if text[at] == '"':
        return re.compile(r'"(?:\\.|[^"\\])*').match(text, at).end()
    depth = 0
    for place in range(at, len(text)):
        depth += {"{": 1, "}": -1}.get(text[place], 0)
        if not depth:
            return place
    return len(text)


class Selector:
    """Says whether a selector holds: names and patterns of machines with !, &&, || and braces."""

    def __init__(self, text, holding):
        self.tokens, self.holding = TOKEN.findall(text), holding

    def holds(self):
        """Alternatives without a sign between them are patterns of machines, of which one suffices."""
        found = self.both()
        while self.tokens and self.tokens[0] != "}":
            if self.tokens[0] == "||":
                self.tokens.pop(0)
            found = self.both() or found
        return found

    def both(self):
        found = self.one()
        while self.tokens and self.tokens[0] == "&&":
            self.tokens.pop(0)
            found = self.one() and found
        return found

    def one(self):
        token = self.tokens.pop(0) if self.tokens else "}"
        if token == "!":
            return not self.one()
        if token == "{":
            found = self.holds()
            self.tokens[:1] = []
            return found
        return any(fnmatch.fnmatchcase(it, token) for it in self.holding)


class Directives:
    """What a test program says of itself. `holding` are the names and the machine for which selectors hold."""

    def __init__(self, text, holding):
        self.rows, self.holding = [(name, words_of(rest)) for name, rest in DIRECTIVE.findall(text)], holding

    def is_meant(self, words, at):
        """Says whether a directive is meant for the machine: it has no selector at a place, or one that holds."""
        if len(words) <= at:
            return True
        text = words[at].strip()
        return Selector(text[len("target"):] if text.startswith("target") else text, self.holding).holds()

    def of(self, name, at=1):
        """Yields the words of the directives of a name that are meant for the machine."""
        for found, words in self.rows:
            if found == name and self.is_meant(words, at):
                yield words

    def is_run(self):
        """Says whether the test is one that runs, and on this machine."""
        wanted = [words for name, words in self.rows if name == "do"] or [["run"]]
        lacking = [it for it, in self.require() if it not in self.holding]
        is_skipped = any(True for _ in self.of("skip-if"))
        return any(it[0] == "run" and self.is_meant(it, 1) for it in wanted) and not lacking and not is_skipped

    def require(self):
        return ([words[0]] for words in self.of("require-effective-target"))

    def options(self, usual):
        """Returns the options of the compiler, in place of the usual ones if it names some."""
        given = [words[0].split() for words in self.of("options")]
        found = given[-1] if given else usual
        return [*found, *(option for words in self.of("additional-options") for option in words[0].split())]

    def sources(self):
        return [it for words in self.of("additional-sources") for it in words[0].split()]

    def variables(self):
        return [f"{words[0]}={words[1]}" for words in self.of("set-target-env-var", 2)]

    def is_to_fail(self):
        return any(True for _ in self.of("shouldfail"))

    def output(self):
        """Returns the expression that the output must have, from its texts one behind the other."""
        texts = (re.sub(r"\\([\[\]])", r"\1", words[0]) for words in self.of("output"))
        return "".join(texts)
