"""Has each shell complete after `ima-agent`, and compares what it offers with the table of the reference and docs/cli.md."""

import re
import subprocess
import tempfile
from pathlib import Path

from harness import ROOT
from reference.command_line import COMMANDS, FLAG

FILES = ("firmware.log", "ima.list")

# Calls the function that bash was given for the program, as bash does, and prints what it offers.
BASH = """
source "$1/bash-completion/completions/ima-agent"
function=$(complete -p ima-agent) && function=${function#*-F } && function=${function% *}
shift
COMP_WORDS=("$@") COMP_CWORD=$(($# - 1))
COMP_LINE="$*" COMP_POINT=${#COMP_LINE}
"$function" ima-agent "${COMP_WORDS[COMP_CWORD]}" "${COMP_WORDS[COMP_CWORD - 1]}"
((${#COMPREPLY[@]} == 0)) || printf '%s\\n' "${COMPREPLY[@]}"
"""

FISH = 'source $argv[1]/fish/vendor_completions.d/ima-agent.fish; complete -C "$argv[2..]"'

# Calls zsh's function with the parts of its completion system in place that print what they are given.
ZSH = """
_describe() { print -rl -- ${${(P)4}%%:*} }
_arguments() { local told; for told in "$@"; do print -r -- "$told"; done }
words=("${@[2,-1]}") CURRENT=$(($# - 1))
source $1/zsh/site-functions/_ima-agent
"""


def lines_of(command, folder, **settings):
    settings = {"PATH": "/usr/bin:/bin", "HOME": folder, **settings}
    said = subprocess.run(command, cwd=folder, env=settings, stdin=subprocess.DEVNULL, stdout=subprocess.PIPE, check=True)
    return said.stdout.decode().splitlines()


def offered(shell, share, folder, words):
    """What a shell offers for the last of the words."""
    call = ["bash", "--norc", "-c", BASH, "bash"] if shell == "bash" else ["fish", "--no-config", "-c", FISH]
    return sorted(line.split("\t")[0] for line in lines_of([*call, share, *words], folder, TERM="dumb"))


def zsh_specifications(share, folder, words):
    """What zsh's function describes and tells `_arguments`, of the options their names and values."""
    return lines_of(["zsh", "-f", "-c", ZSH, "zsh", share, *words], folder)


def choices_of(option):
    """The words of cli.md that an option takes, where it takes some words alone."""
    if option.read is FLAG or option.read is str:
        return None
    words = re.findall(r"`([a-z][a-z0-9-]*)`", (ROOT / "docs/cli.md").read_text())
    return sorted({word for word in words if option.read(word) is not None})


def wanted_lines(shell):
    """Lines of words, the last of which is to be completed, and what must be offered."""
    programs = sorted(asked_of_program())
    yield ["ima-agent", ""], sorted(COMMANDS) if shell == "fish" else sorted([*COMMANDS, *programs])
    yield ["ima-agent", "re"], sorted(name for name in COMMANDS if name.startswith("re"))
    for name, command in COMMANDS.items():
        shown = ["--help", "-h", *command.options]
        yield ["ima-agent", name, "--"], sorted(option for option in shown if option.startswith("--"))
        yield ["ima-agent", name, ""], sorted(FILES)
        for option, row in command.options.items():
            choices = choices_of(row)
            if choices is not None:
                yield ["ima-agent", name, option, ""], choices
            if choices and shell == "bash":
                yield ["ima-agent", name, option, "=", choices[0]], [each for each in choices if each.startswith(choices[0])]
    yield ["ima-agent", "verify", "--save", "f"], ["firmware.log"]
    yield ["ima-agent", "verify", "--known", "known", "--kn"], ["--known"]
    yield ["ima-agent", "boot", "--before", "f"], ["firmware.log"]
    yield ["ima-agent", "measure", "--print", "registers", "--al"], ["--alg"]
    yield ["ima-agent", "verify", "--", "i"], ["ima.list"]


def asked_of_program():
    """The options of the program itself, by the pages."""
    rows = re.findall(r"^\| (`-.*?) \|", (ROOT / "docs/cli.md").read_text().split("\n## ")[1], re.MULTILINE)
    return re.findall(r"`(--?[a-zA-Z]+)`", " ".join(rows))


def try_shell(shell, share, folder):
    for words, wanted in wanted_lines(shell):
        found = offered(shell, share, folder, words)
        if found != wanted:
            yield f"{shell}: {' '.join(words)}: offers {found}, and not {wanted}"


def try_zsh(share, folder):
    said = zsh_specifications(share, folder, ["ima-agent", ""])
    offered_first = {*(line for line in said if line in COMMANDS), *re.findall(r"^(?:\(.*\))?(-[a-zA-Z0-9-]+)\[", "\n".join(said), re.MULTILINE)}
    if offered_first != {*COMMANDS, *asked_of_program()}:
        yield f"zsh: offers {sorted(offered_first)} at first"
    for name, command in COMMANDS.items():
        told = dict(re.match(r"(?:\(.*?\))?(\*?--[a-z0-9-]+)=?\[.*\](?::[a-z0-9-]+:(?:\((.*)\))?.*)?$", line).groups()
                    for line in zsh_specifications(share, folder, ["ima-agent", name, ""]) if re.match(r"(?:\((?!-h).*?\))?\*?--", line))
        wanted = {("*" if row.is_repeated else "") + option: " ".join(choices_of(row) or []) or None for option, row in command.options.items()}
        if told != wanted:
            yield f"zsh: {name}: tells {told}, and not {wanted}"


def faults(share, shell):
    """Where bash, zsh or fish offers something else than it should, with the folder share/ of a release or a prefix."""
    with tempfile.TemporaryDirectory() as folder:
        for name in FILES:
            Path(folder, name).touch()
        return list(try_zsh(share, folder) if shell == "zsh" else try_shell(shell, share, folder))
