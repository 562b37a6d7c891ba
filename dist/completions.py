#!/usr/bin/env python3
"""Writes what bash, zsh and fish complete after `ima-agent`, made from the program's help.

dist/completions.py PROGRAM FOLDER: below FOLDER, where each shell looks in a prefix's share/."""

import sys
from pathlib import Path

from help import read_program

# What the help calls the value of an option that names a file.
FILE_VALUES = ("FILE", "NAMES", "EXPECTED", "QUOTE", "LIST", "KEY", "SIG", "OLD_LOG")

BASH = """\
# What bash completes after ima-agent.

_ima_agent_options() {{
    case $1 in
{options}
    esac
}}

# The values of an option; its status is 1 if the option is a flag.
_ima_agent_values() {{
    case $1 in
{values}
        *) return 1 ;;
    esac
}}

# Completes the name of a file.
_ima_agent_files() {{
    mapfile -t COMPREPLY < <(compgen -f -- "$1")
    compopt -o filenames 2>/dev/null
}}

# Completes by words, of which it takes those that are not on the line yet, or may come again.
_ima_agent_words() {{
    local word line=" ${{COMP_WORDS[*]:0:COMP_CWORD}} "
    for word in "${{@:2}}"; do
        [[ $word == "$1"* ]] || continue
        [[ $line == *" $word "* && ' {repeated} ' != *" $word "* ]] || COMPREPLY+=("$word")
    done
}}

_ima_agent() {{
    local word=${{COMP_WORDS[COMP_CWORD]}} before=${{COMP_WORDS[COMP_CWORD - 1]}} values words
    COMPREPLY=()
    # (bash takes `--alg=sha1` for three words)
    [[ $word != = ]] || word=
    [[ $before != = ]] || before=${{COMP_WORDS[COMP_CWORD - 2]}}
    if ((COMP_CWORD == 1)); then
        _ima_agent_words "$word" {commands} {program}
    elif [[ " ${{COMP_WORDS[*]:1:COMP_CWORD-1}} " == *' -- '* ]]; then
        _ima_agent_files "$word"
    elif values=$(_ima_agent_values "${{COMP_WORDS[1]}} $before"); then
        read -ra words <<<"$values"
        case $values in
            '<file>') _ima_agent_files "$word" ;;
            *) mapfile -t COMPREPLY < <(compgen -W "${{words[*]}}" -- "$word") ;;
        esac
    elif [[ $word == -* ]]; then
        read -ra words <<<"$(_ima_agent_options "${{COMP_WORDS[1]}}")"
        _ima_agent_words "$word" "${{words[@]}}"
    else
        _ima_agent_files "$word"
    fi
}}

complete -F _ima_agent ima-agent
"""

ZSH = """\
#compdef ima-agent
# What zsh completes after ima-agent.

_ima-agent() {{
    local -a commands=(
{commands}
    )
    if (( CURRENT == 2 )); then
        _describe -t commands command commands
        _arguments -s {program}
        return
    fi
    local command=$words[2]
    shift words
    (( CURRENT-- ))
    case $command in
{cases}
    esac
}}

_ima-agent "$@"
"""


FISH = """\
# What fish completes after ima-agent.

# Whether this is the command on the line; without one, whether there is none yet.
function __ima_agent_command
    set -l words (commandline -opc)
    test "$words[2]" = "$argv[1]"
end

"""


def first_sentence(text):
    return text.split(". ", 1)[0].rstrip(".").replace("`", "")


def names_of(option):
    return ([f"-{option.short}"] if option.short else []) + [f"--{option.name}"]


def takes_file(option):
    return option.value in FILE_VALUES


def all_names(options):
    return " ".join(name for option in options for name in names_of(option))


def bash(whole, commands):
    options = [f"        {command.name}) echo '{all_names(command.options)}' ;;" for command in commands]
    values = [f"        '{command.name} --{option.name}') echo '{'<file>' if takes_file(option) else ' '.join(option.values)}' ;;"
              for command in commands for option in command.options if option.value]
    repeated = {f"--{option.name}": None for command in commands for option in command.options if option.is_repeated}
    return BASH.format(options="\n".join(options), values="\n".join(values), commands=" ".join(command.name for command in commands),
                       program=all_names(whole.options), repeated=" ".join(repeated))


def zsh_quoted(text):
    return "'" + text.replace("'", "'\\''") + "'"


def zsh_option(option):
    """What `_arguments` is told of an option, and of its value."""
    told = first_sentence(option.help)
    for letter in "\\[]:":
        told = told.replace(letter, f"\\{letter}")
    value = ""
    if option.value:
        value = f":{option.name}:" + ("_files" if takes_file(option) else f"({' '.join(option.values)})" if option.values else "")
    names = names_of(option)
    ending, first = "=" if option.value else "", "*" if option.is_repeated else ""
    if len(names) == 1:
        return zsh_quoted(f"{first}{names[0]}{ending}[{told}]{value}")
    return zsh_quoted(f"({' '.join(names)})") + f"{{{','.join(names)}}}" + zsh_quoted(f"[{told}]{value}")


def zsh_argument(shown):
    """What `_arguments` is told of an argument that is no option."""
    name = shown.strip("<[]>.").lower()
    if shown.endswith("..."):
        return zsh_quoted(f"*:{name}:_files")
    return zsh_quoted(f"{'::' if shown.startswith('[') else ':'}{name}:_files")


def zsh(whole, commands):
    described = [f"        {zsh_quoted(f'{command.name}:{first_sentence(command.about)}')}" for command in commands]
    cases = []
    for command in commands:
        told = [zsh_option(option) for option in command.options] + [zsh_argument(name) for name in command.arguments]
        cases.append(f"        {command.name})\n            _arguments " + " \\\n                ".join(told) + "\n            ;;")
    program = " ".join(zsh_option(option) for option in whole.options)
    return ZSH.format(commands="\n".join(described), program=program, cases="\n".join(cases))


def fish_quoted(text):
    return "'" + text.replace("\\", "\\\\").replace("'", "\\'") + "'"


def fish_option(condition, option):
    words = ["complete -c ima-agent", f"-n {fish_quoted(condition)}"]
    words += [f"-s {option.short}"] if option.short else []
    words.append(f"-l {option.name}")
    if takes_file(option):
        words.append("-r -F")
    elif option.value:
        words.append(f"-x -a {fish_quoted(' '.join(option.values))}" if option.values else "-x")
    return " ".join([*words, f"-d {fish_quoted(first_sentence(option.help))}"])


def fish(whole, commands):
    lines = [f"complete -c ima-agent -n __ima_agent_command -f -a {command.name} -d {fish_quoted(first_sentence(command.about))}"
             for command in commands]
    lines += [fish_option("__ima_agent_command", option) for option in whole.options]
    for command in commands:
        lines += [fish_option(f"__ima_agent_command {command.name}", option) for option in command.options]
    return FISH + "\n".join(lines) + "\n"


def main():
    program, folder = sys.argv[1:]
    told = read_program(program)
    for name, text in (("bash-completion/completions/ima-agent", bash), ("zsh/site-functions/_ima-agent", zsh),
                       ("fish/vendor_completions.d/ima-agent.fish", fish)):
        file = Path(folder, name)
        file.parent.mkdir(parents=True, exist_ok=True)
        file.write_text(text(*told))


if __name__ == "__main__":
    main()
