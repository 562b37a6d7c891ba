"""The commands of the program, as its own help tells them."""

import re
import subprocess
from typing import Dict, List, NamedTuple, Optional, Tuple

OPTION = re.compile(r"^ {2,6}(?:-(?P<short>\w), )?--(?P<name>[a-z0-9-]+)(?: <(?P<value>\S+)>)?(?: {2,}(?P<help>\S.*))?$")
ARGUMENT = re.compile(r"^  (?P<shown>[<[][A-Z]+[>\]](?:\.\.\.)?)  ")
COMMAND = re.compile(r"^  (?P<name>[a-z]+)  +(?P<about>\S.*)$")
ROW = re.compile(r"^ {1,2}(?P<number>[0-9]+)  (?P<text>\S.*)$")
NOTE = re.compile(r"\s*\[(default|possible values): ([^]]*)\]")


class Option(NamedTuple):
    """An option: without `value` it is a flag; with `values` it takes these alone. Its help says whether it may come again."""

    name: str
    short: Optional[str]
    value: Optional[str]
    help: str
    default: Optional[str]
    values: Tuple[str, ...]

    @property
    def is_repeated(self):
        return "several times" in self.help


class Command(NamedTuple):
    """A command, or the program itself: what it does, its arguments, and its statuses with what they mean."""

    name: str
    about: str
    options: List[Option]
    arguments: List[str]
    statuses: Dict[str, str]


def sections(text):
    """The parts of a help by their first lines, each with its lines."""
    for part in re.split(r"\n\n+", text.rstrip("\n")):
        first, *lines = part.split("\n")
        yield first, lines


def joined(lines, pattern):
    """Each line that matches, with the text of the lines after it that do not."""
    items = []
    for line in lines:
        found = pattern.match(line)
        if found:
            items.append((found, []))
        elif items:
            items[-1][1].append(line.strip())
    return items


def option_of(found, more):
    text = " ".join([found["help"] or "", *more]).strip()
    notes = dict(NOTE.findall(text))
    values = notes.get("possible values")
    return Option(
        found["name"], found["short"], found["value"], NOTE.sub("", text), notes.get("default"),
        tuple(values.split(", ")) if values else (),
    )


def rows_of(lines):
    return {found["number"]: " ".join([found["text"], *more]) for found, more in joined(lines, ROW)}


def read_help(name, text):
    """What the help of a command says of it, and the commands that it names."""
    command, commands = Command(name, text.split("\n", 1)[0], [], [], {}), []
    for first, lines in sections(text):
        if first == "Options:":
            command.options.extend(option_of(found, more) for found, more in joined(lines, OPTION))
        elif first == "Arguments:":
            command.arguments.extend(found["shown"] for found, _ in joined(lines, ARGUMENT))
        elif first.startswith("Commands that "):
            commands.extend(found["name"] for found, _ in joined(lines, COMMAND))
        elif first == "Exit status:":
            command.statuses.update(rows_of(lines))
    return command, commands


def help_of(program, *words):
    said = subprocess.run([program, *words, "--help"], stdin=subprocess.DEVNULL, stdout=subprocess.PIPE, check=True)
    return said.stdout.decode()


def read_program(program):
    """The program itself, and its commands."""
    whole, names = read_help("", help_of(program))
    commands = [read_help(name, help_of(program, name))[0] for name in names]
    if not commands or not all(command.options and command.statuses for command in [whole, *commands]):
        raise SystemExit(f"{program}: its help has another form")
    return whole, commands
