"""The options of the commands, as the table in the sources has them, and the tables of the pages that are made of it.

The table is crates/command_requests/src/parameters.rt; which command takes which of its lists is in commands.rt beside it.
"""
import collections
import re

from dt_commands.repository import TOP
from dt_commands.texts import read_text

TABLE, COMMANDS = ("crates/command_requests/src/" + it for it in ("parameters.rt", "commands.rt"))
ROW = re.compile(
    r"const (?P<row>\w+): Parameter = Parameter \{\s*name: \"(?P<name>[^\"]*)\",\s*form: Form::(?P<form>\w+)(?:\(Text::(?P<text>\w+)\))?,"
    r"\s*need: Requirement::(?P<need>\w+)(?:\(\"(?P<default>[^\"]*)\"\))?,\s*help:\s*\"(?P<help>[^\"]*)\",\s*\};"
)
LIST = re.compile(r"static (\w+): \[Parameter; (\d+)\] =\s*\[([^\]]*)\];")
COMMAND = re.compile(r"command\(\s*alloc,\s*\"(\w+)\",\s*\"([^\"]*)\",\s*&(\w+),?\s*\)")
# What help says of each text besides what it is, and of a default that the parser doesn't know.
PLACE, DEFAULT = re.compile(r",? to this file, or to standard output where it is -$"), re.compile(r" \[default: (.*)\]$")

Command = collections.namedtuple("Command", "name about parameters")


class Parameter(collections.namedtuple("Parameter", "name form need default help")):
    """An argument of a command: its name, its form and need as the table names them, its default or None, and what help says."""

    __slots__ = ()

    @property
    def is_option(self):
        return self.form != "Placed"

    @property
    def is_file(self):
        """Whether its value is the path of a file."""
        return self.form in ("Placed", "File", "Text")

    @property
    def is_flag(self):
        """Whether it is an option without a value."""
        return self.form == "Flag"

    @property
    def words(self):
        """What a command line has of it: its name and, unless it is a flag, what help calls its value."""
        return f"--{self.name}" if self.is_flag else f"--{self.name} {self.value}"

    @property
    def value(self):
        """What help calls its value."""
        return "FILE" if self.is_file else "SHUFFLE" if self.form == "Shuffle" else "N"

    @property
    def meaning(self):
        """What help says of it without a default, and without what is the same for each text."""
        return DEFAULT.sub("", PLACE.sub("", self.help))

    @property
    def default_shown(self):
        """What a table shows as its default."""
        if self.need == "Required":
            return "must be given"
        said = DEFAULT.search(self.help)
        return f"{int(self.default):,}" if self.default else said[1] if said else "none"


def rows_in(table):
    """Returns the rows of a table of parameters by their names in the source."""
    found = {it["row"]: Parameter(it["name"], it["form"], it["need"], it["default"], it["help"]) for it in ROW.finditer(table)}
    if len(found) != table.count(": Parameter = "):
        raise SystemExit(f"{TABLE}: a row has another form than tools/dt_commands/maintainers/options.py reads")
    for it in found.values():
        if it.form == "Text" and not PLACE.search(it.help):
            raise SystemExit(f"{TABLE}: help of {it.name} doesn't say where the text goes, as that of the others does")
    return found


def commands_in(table, commands):
    """Returns the commands of a table of parameters and the source of the commands, in the order of the latter."""
    rows = rows_in(table)
    lists = {name: [rows[it] for it in re.findall(r"\w+", listed)] for name, count, listed in LIST.findall(table)}
    found = [Command(name, about, lists[taken]) for name, about, taken in COMMAND.findall(commands)]
    if len(found) != len(lists):
        raise SystemExit(f"{COMMANDS}: {len(found)} commands are read of it, and {TABLE} has {len(lists)} lists of parameters")
    return found


def commands():
    """Returns the commands of the program."""
    return commands_in(read_text(f"{TOP}/{TABLE}"), read_text(f"{TOP}/{COMMANDS}"))


def table_of(command):
    """Returns the table of a command's options, as a page has it."""
    lines = ["| Option | Default | Meaning |", "|---|---|---|"]
    for it in command.parameters:
        if it.is_option:
            lines.append(f"| `{it.words}` | {it.default_shown} | {it.meaning[0].lower()}{it.meaning[1:]} |")
    return "\n".join(lines) + "\n"


def untold(page, every):
    """Returns the options that the command line at the head of a command's section doesn't name, or names without need."""
    wrong = []
    for command in every:
        found = re.search(rf"^## {command.name}\n\n`(dthreads [^`]*)`", page, re.M)
        named = set(re.findall(r"--(\w+)", found[1])) if found else set()
        taken = {it.name for it in command.parameters if it.is_option}
        if not found or named != taken and "[OPTIONS]" not in found[1]:
            wrong.append(f"docs/CLI.md: the command line of {command.name} doesn't have its options: {' '.join(sorted(named ^ taken)) or 'no line'}")
    return wrong
