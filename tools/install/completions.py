"""Completion of `bookie` for bash, zsh and fish, made of the table that makes help and man page."""

import sys
from pathlib import Path

TOP = Path(__file__).resolve().parent.parent.parent
sys.path.insert(0, str(TOP / ".ci"))
sys.dont_write_bytecode = True

import commands  # noqa: E402

Option = commands.Option
MADE = "Completion of bookie. Made by ./dev build of the help of the programs."
# Values that are names of files.
FILES = ("FILE", "DIR", "PATH", "PORT|FILE")
JSON = Option("json", None, "Print JSON objects")
GENERAL = [JSON, Option("help", None, "Print help"), Option("version", None, "Print version")]
HELP = commands.Command("help", "Show the help of a command", "help COMMAND", [], "", False)
# Commands that print no JSON: the steps of a script, and the programs of their own.
NO_JSON = ("script", "serve", "daemon", "simulate")


def options_of(command):
    json = [] if command.name in NO_JSON else [JSON]
    return [*command.options, *json, Option("help", None, "Print help")]


def cases_in_bash(table):
    """The cases of bash: the options by the command, and the values by command and option."""
    words, values = [], []
    for it in table[:-1]:
        options = " ".join(f"--{option.name}" for option in options_of(it))
        words.append(f"    {it.name}) words='{options}' ;;")
        for option in it.options:
            if option.value and option.value not in FILES:
                among = " ".join(option.choice)
                values.append(f"    {it.name},--{option.name}) values='{among}' ;;")
    return "\n".join(words), "\n".join(values)


def in_bash(table):
    """The completion for bash: commands first, then options, values of a choice, and files."""
    words, values = cases_in_bash(table)
    names = " ".join(it.name for it in table)
    general = " ".join(f"--{it.name}" for it in GENERAL)
    return f"""# {MADE}

_bookie() {{
    local word=${{COMP_WORDS[COMP_CWORD]}} before=${{COMP_WORDS[COMP_CWORD - 1]}}
    local command='' words='' values=- at
    for ((at = 1; at < COMP_CWORD; at++)); do
        if [[ ${{COMP_WORDS[at]}} != -* ]]; then
            command=${{COMP_WORDS[at]}}
            break
        fi
    done
    COMPREPLY=()
    case $command in
    '') words='{names} {general}' ;;
    help) words='{names}' ;;
{words}
    esac
    case $command,$before in
{values}
    esac
    if [[ $values != - ]]; then
        compopt +o default
        mapfile -t COMPREPLY < <(compgen -W "$values" -- "$word")
    elif [[ $word == -* || -z $command || $command == help ]]; then
        mapfile -t COMPREPLY < <(compgen -W "$words" -- "$word")
    fi
}}

complete -o default -F _bookie bookie
"""


def quoted(text):
    return "'" + text.replace("'", "'\\''") + "'"


def for_zsh(option):
    """An option as `_arguments` of zsh has it."""
    told = option.told
    for it in ("\\", "[", "]", ":"):
        told = told.replace(it, f"\\{it}")
    value = ""
    if option.value:
        among = f"({' '.join(option.choice)})" if option.choice else ""
        action = "_files" if option.value in FILES else among or " "
        value = f":{option.value.replace(':', '-')}:{action}"
    return quoted(f"*--{option.name}[{told}]{value}")


def in_zsh(table):
    """The completion for zsh."""
    listed = "\n".join(f"        {quoted(f'{it.name}:{it.summary}')}" for it in table)
    cases = []
    for it in table[:-1]:
        options = " \\\n            ".join(map(for_zsh, options_of(it)))
        cases.append(
            f"        {it.name})\n            _arguments {options} '*:file:_files'\n            ;;"
        )
    general = " \\\n        ".join(map(for_zsh, GENERAL))
    return f"""#compdef bookie
# {MADE}

_bookie() {{
    local context state state_descr line
    typeset -A opt_args
    local -a table
    table=(
{listed}
    )
    _arguments -C {general} \\
        '1:command:->command' '*::word:->words'
    case $state in
    command) _describe -t commands command table ;;
    words)
        case $words[1] in
        help) _describe -t commands command table ;;
{chr(10).join(cases)}
        esac
        ;;
    esac
}}

_bookie "$@"
"""


def for_fish(option):
    """The words of fish on an option."""
    words = f"-l {option.name} -d {fish_quoted(option.told)}"
    if option.choice:
        return f"{words} -x -a {fish_quoted(' '.join(option.choice))}"
    if option.value:
        return f"{words} -r {'-F' if option.value in FILES else '-f'}"
    return words


def fish_quoted(text):
    return "'" + text.replace("\\", "\\\\").replace("'", "\\'") + "'"


def in_fish(table):
    """The completion for fish."""
    none = "-n __fish_use_subcommand"
    lines = [f"# {MADE}", ""]
    for it in table:
        lines.append(f"complete -c bookie {none} -f -a {it.name} -d {fish_quoted(it.summary)}")
    lines += [f"complete -c bookie {none} {for_fish(it)}" for it in GENERAL]
    names = " ".join(it.name for it in table)
    lines.append(f"complete -c bookie -n '__fish_seen_subcommand_from help' -f -a '{names}'")
    for it in table[:-1]:
        seen = f"-n '__fish_seen_subcommand_from {it.name}'"
        lines += [f"complete -c bookie {seen} {for_fish(option)}" for option in options_of(it)]
    return "\n".join(lines) + "\n"


def completions():
    """Returns the text of each script, by its path below the prefix of an installation."""
    table = [*commands.commands(), HELP]
    return {
        "share/bash-completion/completions/bookie": in_bash(table),
        "share/zsh/site-functions/_bookie": in_zsh(table),
        "share/fish/vendor_completions.d/bookie.fish": in_fish(table),
    }
