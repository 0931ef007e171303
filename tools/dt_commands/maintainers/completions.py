"""The completions of dthreads for bash and zsh, made of the table of options."""
from dt_commands import options

BASH, ZSH = "completions/dthreads", "completions/_dthreads"
HEAD = "# Completes the words of a command line of dthreads. Written by tools/dt write pages.\n"


def of_bash(command):
    """Returns the case of a command for bash: the options that it takes."""
    taken = [it for it in command.parameters if it.is_option]
    words = " ".join([f"--{it.name}" for it in taken] + ["--help"])
    return f"        {command.name}) options=\"{words}\" ;;\n"


def bash(commands):
    """Returns the completions for bash."""
    every = {it.name: it for command in commands for it in command.parameters if it.is_option}
    numbers = " | ".join(f"--{name}" for name, it in every.items() if not it.is_file and not it.is_flag)
    files = " | ".join(f"--{name}" for name, it in every.items() if it.is_file)
    names = " ".join(it.name for it in commands)
    return f"""{HEAD}_dthreads() {{
    local word=${{COMP_WORDS[COMP_CWORD]}} options
    COMPREPLY=()
    if ((COMP_CWORD == 1)); then
        mapfile -t COMPREPLY < <(compgen -W "{names} --help --version" -- "$word")
        return
    fi
    case ${{COMP_WORDS[1]}} in
{"".join(map(of_bash, commands))}        *) return ;;
    esac
    case ${{COMP_WORDS[COMP_CWORD - 1]}} in
        {numbers}) return ;;
        {files}) options= ;;
    esac
    if [[ $options && $word == -* ]]; then
        mapfile -t COMPREPLY < <(compgen -W "$options" -- "$word")
    else
        mapfile -t COMPREPLY < <(compgen -f -- "$word")
    fi
}}
complete -o filenames -F _dthreads dthreads
"""


def quoted(text):
    """Returns a text as a word of zsh."""
    return "'" + text.replace("'", "'\\''") + "'"


def said(text):
    """Returns what is said of a word in a specification of zsh's _arguments."""
    return "".join(f"\\{it}" if it in "\\[]:" else it for it in text)


def of_zsh(command):
    """Returns the case of a command for zsh."""
    words = ["'(- *)'{-h,--help}'[Print help]'"]
    places = 0
    for it in command.parameters:
        action = "_files" if it.is_file else " "
        if it.is_flag:
            words.append(quoted(f"--{it.name}[{said(it.meaning)}]"))
        elif it.is_option:
            words.append(quoted(f"--{it.name}=[{said(it.meaning)}]:{it.value}:{action}"))
        else:
            places += 1
            words.append(quoted(f"{places}:{it.name}:{action}"))
    return f"                {command.name}) _arguments {' '.join(words)} ;;\n"


def zsh(commands):
    """Returns the completions for zsh."""
    names = " ".join(quoted(f"{it.name}:{said(it.about)}") for it in commands)
    return f"""#compdef dthreads
{HEAD}_dthreads() {{
    local context state state_descr line
    typeset -A opt_args
    _arguments -C '(- *)'{{-h,--help}}'[Print help]' '(- *)'{{-V,--version}}'[Print version]' '1: :->command' '*:: :->arguments'
    case $state in
        command)
            local -a commands=({names})
            _describe command commands
            ;;
        arguments)
            case $words[1] in
{"".join(map(of_zsh, commands))}            esac
            ;;
    esac
}}
_dthreads "$@"
"""


def files():
    """Returns the files of the completions, each with its text."""
    every = options.commands()
    return {BASH: bash(every), ZSH: zsh(every)}
