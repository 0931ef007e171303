"""The manual pages and the completions of the kit's commands, made of what each prints for --help.

Such a text begins with a sentence that says what the command does, and a block with its command lines. Paragraphs are without indent,
blocks have one of four spaces; in a block a line that begins with an option has its meaning behind two spaces or more, which goes on in
lines with more indent.
"""
import functools
import re
import subprocess
import textwrap

from dt_commands import man_page, options
from dt_commands.repository import TOP
from dt_commands.texts import read_text

COMMANDS = ("dthreads-cc", "dthreads-exec", "dthreads-gdb", "dthreads-lines", "dthreads-picture", "dthreads-cargo")
FORM = "tools/pages/dthreads-tool.1"
BASH, ZSH = "completions/dthreads-tools", "completions/_dthreads-tools"
# Commands that take the options of a command of `dthreads`, too.
PASSING = {"dthreads-exec": "run", "dthreads-gdb": "debug"}
INDENT = "    "
OPTION = re.compile(r"(--[a-z+-]+(?:[ =][^ ]+)?)(?: {2,}(.*))?$")
WORD = re.compile(r"(?<![\w-])(--[a-z][a-z+-]*)")


@functools.lru_cache(maxsize=None)
def help_of(name):
    """Returns what a command prints for --help."""
    return subprocess.run([f"{TOP}/guest/{name}", "--help"], stdin=subprocess.DEVNULL, stdout=subprocess.PIPE, check=True, text=True).stdout


def blocks_of(text):
    """Returns the paragraphs and blocks of a help, each as its lines."""
    return [it.split("\n") for it in re.split(r"\n{2,}", text.strip("\n"))]


def items_of(lines):
    """Returns the options of a block, each with its meaning; none if the block has none."""
    found = []
    for line in lines:
        option = OPTION.match(line[len(INDENT) :])
        if option:
            found.append([option[1], option[2] or ""])
        elif found:
            found[-1][1] = f"{found[-1][1]} {line.strip()}".strip()
    return found


def paragraph(text):
    return [man_page.guarded(it) for it in textwrap.wrap(man_page.shown(text), man_page.WIDTH, **man_page.WHOLE)]


def of_lines(lines):
    """Yields the lines of a manual page for a paragraph or a block of a help."""
    items = items_of(lines) if lines[0].startswith(INDENT) else []
    for option, meaning in items:
        yield from (".TP", rf"\fB{man_page.escaped(option)}\fR", *paragraph(meaning))
    if not items and lines[0].startswith(INDENT):
        yield from man_page.of_block([it[len(INDENT) :] for it in lines])
    elif not items:
        yield from (".PP", *paragraph(" ".join(lines)))


def page(name):
    """Returns the manual page of a command."""
    head, usage, *rest = blocks_of(help_of(name))
    does, _, more = " ".join(head).partition(". ")
    # (a first paragraph of several sentences speaks of the block below it)
    body = [[more], usage, *rest] if more else rest
    synopsis = [man_page.escaped(it.strip()) for it in usage]
    version = re.search(r'const VERSION: &str = "(.*)";', man_page.read(man_page.VERSION))[1]
    others = [rf"\fB{man_page.escaped(it)}\fR(1)" for it in ("dthreads", *COMMANDS) if it != name]
    fields = {"plain": name, "name": man_page.escaped(name), "title": man_page.escaped(name.upper()), "date": man_page.DATE, "version": version}
    fields.update(does=man_page.shown(does[0].lower() + does[1:].rstrip(".:")), synopsis="\n.br\n".join(synopsis), others=",\n".join(others))
    return read_text(f"{TOP}/{FORM}").format(body="\n".join(line for it in body for line in of_lines(it)), **fields)


def words_of(name):
    """Returns the options of a command: those that its help names, and those of the command of `dthreads` that it passes them on to."""
    passed = [it for it in options.commands() if it.name == PASSING.get(name)]
    every = WORD.findall(help_of(name)) + [f"--{it.name}" for command in passed for it in command.parameters if it.is_option]
    return sorted({*every, "--help"} - {"--"})


def meanings_of(name):
    """Returns the meanings of options, from the blocks of the help and the table of the program."""
    found = {f"--{it.name}": it.meaning for command in options.commands() for it in command.parameters if it.is_option}
    for lines in blocks_of(help_of(name)):
        if lines[0].startswith(INDENT):
            found.update((WORD.match(option)[1], re.split(r"[.:;] ", meaning)[0]) for option, meaning in items_of(lines))
    return found


def bash():
    """Returns the completions for bash. bash-completion loads a file of the name of the command, which is a link to this one."""
    cases = "".join(f"        {name}) options=\"{' '.join(words_of(name))}\" ;;\n" for name in COMMANDS)
    return f"""# Completes the words of the kit's commands. Written by tools/dt write pages.
_dthreads_tools() {{
    local word=${{COMP_WORDS[COMP_CWORD]}} options=
    COMPREPLY=()
    case ${{COMP_WORDS[0]##*/}} in
{cases}    esac
    if [[ $word == -* ]]; then
        mapfile -t COMPREPLY < <(compgen -W "$options" -- "$word")
    else
        mapfile -t COMPREPLY < <(compgen -f -- "$word")
    fi
}}
complete -o filenames -F _dthreads_tools {" ".join(COMMANDS)}
"""


def of_zsh(name):
    """Returns the case of a command for zsh."""
    meanings = meanings_of(name)
    told = (f"{it}:{said}" if said else it for it, said in ((it, meanings.get(it)) for it in words_of(name)))
    words = " ".join("'" + it.replace("'", "'\\''") + "'" for it in told)
    return f"        {name}) options=({words}) ;;\n"


def zsh():
    """Returns the completions for zsh."""
    return f"""#compdef {" ".join(COMMANDS)}
# Completes the words of the kit's commands. Written by tools/dt write pages.
_dthreads_tools() {{
    local -a options
    case $service in
{"".join(map(of_zsh, COMMANDS))}    esac
    if [[ $PREFIX == -* ]]; then
        _describe option options
    else
        _files
    fi
}}
_dthreads_tools "$@"
"""


def files():
    """Returns the manual pages and the completions, each with its text."""
    return {**{f"man/{it}.1": page(it) for it in COMMANDS}, BASH: bash(), ZSH: zsh()}
