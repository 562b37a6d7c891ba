"""Reads cases in the form that README.md describes. What is not in this form raises `Malformed`, which says where and why."""

import re
import shlex
from dataclasses import dataclass
from pathlib import Path
from typing import NamedTuple, Optional

ROOT = Path(__file__).resolve().parents[2]
FOLDER = ROOT / "tests/cases"
SAMPLES = "samples/"
REFERENCE, ECDSA = "By the reference.", "By ECDSA."
HEADER = re.compile(r"-- (.+?)( hex)? --")
STATUS = re.compile(r"\[([1-9]\d*)\]")
SAVING = "--save"
FAULTS = re.compile(r"^([A-Z][a-z]+ faults \(.*?\n)(?=\n|\Z)", re.MULTILINE | re.DOTALL)
PART = re.compile(
    r"#.*"
    r"|(?:\"(?P<text>[^\"]*)\""
    r"|@(?P<name>[^\s\[*@\"]+)(?:\[(?P<start>-?\d*):(?P<end>-?\d*)\])?"
    r"|(?P<digits>(?:[0-9a-fA-F]{2})+))"
    r"(?:\*(?P<count>[1-9]\d*))?(?=\s|$)"
    r"|(?P<bad>\S+)"
)


class Malformed(Exception):
    """What is not in the form of cases: the number of a line, and what is wrong there."""

    def __init__(self, line, fault):
        super().__init__(f"{line}: {fault}")


@dataclass(frozen=True)
class Command:
    """A command line, and what it shall answer: the lines of its output and of what it says on standard error, and its status."""

    line: int
    text: str
    words: list
    input: Optional[str]
    output: Optional[str]
    wanted: list
    status: int

    @property
    def saved(self):
        """The name of the file that the command is to save, or None."""
        for word, value in zip(self.words, [*self.words[1:], None]):
            name, has_value, text = word.partition("=")
            if name == SAVING:
                return text if has_value else value
        return None


def wanted_of(name):
    """The file that has the bytes which are to be saved under this name."""
    return f"{name}.wanted"


@dataclass(frozen=True)
class Section:
    """A file of a case, as it is written."""

    line: int
    name: str
    is_hex: bool
    body: str

    def data(self, files):
        """The bytes of the file, where those that it names are these files or samples."""
        return b"".join(data * count for data, count in self.parts(files))

    def parts(self, files):
        """The bytes of each part, and how often they come."""
        if not self.is_hex:
            return [(self.body.encode(), 1)]
        return [self._part(part, files) for part in PART.finditer(self.body)]

    def names(self):
        """What may name other files: what this one is made of, and each line of its text."""
        if not self.is_hex:
            return set(self.body.split("\n"))
        return {name for part in PART.finditer(self.body) for name in (part["name"], *(part["text"] or "").split("\n"))}

    def _part(self, part, files):
        line = self.line + 1 + self.body.count("\n", 0, part.start())
        if part["bad"]:
            raise Malformed(line, f"no part of a file of bytes: {part['bad']}")
        data = (part["text"] or "").encode() + bytes.fromhex(part["digits"] or "")
        if part["name"]:
            data = slice_of(named(part["name"], files, line), part["start"], part["end"], line)
        return data, int(part["count"] or 1)


@dataclass(frozen=True)
class Case:
    """A case: its name, what it says before its files, the commands in that, and the files."""

    name: str
    prose: str
    commands: list
    sections: list

    @property
    def is_by_reference(self):
        return REFERENCE in self.prose

    @property
    def is_by_ecdsa(self):
        return ECDSA in self.prose

    def has_at_most(self, size, shared):
        """Whether the files have no more bytes than this, all together."""
        files = dict(shared)
        for section in self.sections:
            size -= sum(len(data) * count for data, count in section.parts(files))
            if size < 0:
                return False
            files[section.name] = section.data(files)
        return True

    def lay(self, folder, shared):
        """Writes the files into an empty folder, where `samples` then are the samples, and returns their size."""
        files = dict(shared)
        (folder / "samples").symlink_to(ROOT / "samples")
        for section in self.sections:
            files[section.name] = section.data(files)
            path = folder / section.name
            path.parent.mkdir(parents=True, exist_ok=True)
            path.write_bytes(files[section.name])
        return sum(len(files[section.name]) for section in self.sections)


def named(name, files, line):
    """The bytes of a file of the case, of the shared ones, or of the samples."""
    if name in files:
        return files[name]
    if name.startswith(SAMPLES) and (ROOT / name).is_file():
        return (ROOT / name).read_bytes()
    raise Malformed(line, f"no file above has this name, nor a shared one or a sample: {name}")


def sentences_of(name):
    """The sentences of the table of faults of docs/errors.txt that begins with this word, by the faults' numbers."""
    tables = {text.split()[0]: text for text in FAULTS.findall((ROOT / "docs/errors.txt").read_text())}
    return {int(number): sentence for number, sentence in re.findall(r"^ +(\d+)  (.*)$", tables[name], re.MULTILINE)}


class Row(NamedTuple):
    """A row of a table of faults: what is wrong, and what to do."""

    wrong: str
    advice: str

    def at(self, kind, place):
        """The row of a fault at this place, if it names one."""
        return self._replace(wrong=f"{kind} {place}: {self.wrong}") if place else self

    def as_sentence(self):
        """The row of a fault that names no place: its words begin with a capital letter."""
        return self._replace(wrong=self.wrong[0].upper() + self.wrong[1:])


def rows_of(name):
    """The rows of the table of faults of docs/errors.txt that begins with this word, by the faults' numbers. Where rows have the same advice, it is
    below the last of them."""
    tables = {text.split()[0]: text for text in FAULTS.findall((ROOT / "docs/errors.txt").read_text())}
    found, below = {}, ""
    for number, wrong, advice in reversed(re.findall(r"^ +(\d+)  (.*)\n((?: {5}.*\n)*)", tables[name], re.MULTILINE)):
        below = " ".join(advice.split()) or below
        found[int(number)] = Row(wrong, below)
    return found


def displayed_of(name):
    """The sentences by which the program displays these faults: those of docs/errors.txt, or of tests/faults/words.txt where that has others."""
    others = re.findall(rf"^{name} (\d+): (.*)$", (ROOT / "tests/faults/words.txt").read_text(), re.MULTILINE)
    return {**sentences_of(name), **{int(number): sentence for number, sentence in others}}


def slice_of(data, start, end, line):
    """A part of some bytes, which has to lie in them; negative places count from their end."""
    places = [int(start or 0), int(end) if end else len(data)]
    first, last = (place + len(data) if place < 0 else place for place in places)
    if not 0 <= first <= last <= len(data):
        raise Malformed(line, f"no part of {len(data)} bytes: [{start or ''}:{end or ''}]")
    return data[first:last]


def sections_of(lines):
    """The number of lines before the first section, and the sections."""
    places = []
    for place, line in enumerate(lines):
        if line.startswith("-- "):
            if not HEADER.fullmatch(line):
                raise Malformed(place + 1, f"not the first line of a file: {line}")
            places.append(place)
    sections = []
    for place, end in zip(places, [*places[1:], len(lines)]):
        name, is_hex = HEADER.fullmatch(lines[place]).groups()
        path = Path(name)
        if name != name.strip() or path.is_absolute() or {"..", "samples"} & set(path.parts) or name == ".":
            raise Malformed(place + 1, f"no name of a file of a case: '{name}'")
        if name in (section.name for section in sections):
            raise Malformed(place + 1, f"an earlier file has this name: {name}")
        sections.append(Section(place + 1, name, is_hex is not None, "".join(f"{line}\n" for line in lines[place + 1 : end])))
    return places[0] if places else len(lines), sections


def command_of(line, text, wanted):
    """A command line with its words, in which `<` gives it a file and `>` takes its output."""
    try:
        program, *words = shlex.split(text)
    except ValueError as error:
        raise Malformed(line, f"{error}: {text}") from error
    if program != "ima-agent":
        raise Malformed(line, f"not a command of ima-agent: {text}")
    streams = {}
    for sign in "<>":
        if words.count(sign) > 1 or words[-1:] == [sign]:
            raise Malformed(line, f"one file is to come after {sign}: {text}")
        if sign in words:
            place = words.index(sign)
            streams[sign] = words[place + 1]
            del words[place : place + 2]
    status = STATUS.fullmatch(wanted[-1]) if wanted else None
    wanted = wanted[:-1] if status else wanted
    return Command(line, text, words, streams.get("<"), streams.get(">"), wanted, int(status[1]) if status else 0)


def commands_of(lines):
    """The commands; those right under one another show the same."""
    commands, begun, shown = [], [], []
    for number, line in enumerate([*lines, ""], 1):
        if line.startswith("    ") and not line.startswith("    $ "):
            if not begun:
                raise Malformed(number, "what is shown has no command right above it")
            shown.append(line[4:])
        elif line.startswith("    "):
            if shown:
                commands += [command_of(*it, shown) for it in begun]
                begun, shown = [], []
            begun.append((number, line[6:]))
        else:
            if line.strip() and begun:
                raise Malformed(number, "what a command shows is to be followed by an empty line")
            if line.strip() and (line[0].isspace() or line.startswith("$ ")):
                raise Malformed(number, "a line of prose begins with white space or `$`; a command has four spaces before it")
            commands += [command_of(*it, shown) for it in begun]
            begun, shown = [], []
    return commands


def files_named(case):
    """The files that the commands name, that other files are made of, or that a text names."""
    words = {word for command in case.commands for word in (*command.words, command.input, command.output) if word}
    words |= {word.split("=", 1)[1] for word in words if "=" in word}
    words |= {wanted_of(command.saved) for command in case.commands if command.saved}
    return words.union(*(section.names() for section in case.sections))


def case_files():
    """The files that are to be cases: those that are called so, and all that stand in folders."""
    files = (path for path in FOLDER.rglob("*") if path.is_file() and "__pycache__" not in path.parts)
    return sorted(path for path in files if path.suffix == ".case" or path.parent != FOLDER)


def read_case(path):
    """The case of a file, or `Malformed`."""
    if path.suffix != ".case":
        raise Malformed(1, "a file here is a case, and its name ends in .case")
    lines = path.read_text().split("\n")
    if lines[-1] != "":
        raise Malformed(len(lines), "the last line has no end")
    end, sections = sections_of(lines[:-1])
    name = path.relative_to(FOLDER).with_suffix("") if path.is_relative_to(FOLDER) else path.name
    case = Case(str(name), "\n".join(lines[:end]), commands_of(lines[:end]), sections)
    if not case.commands:
        raise Malformed(1, "the case has no command")
    if re.search(REFERENCE[:-1], case.prose, re.IGNORECASE) and not case.is_by_reference:
        raise Malformed(1, f"a case that is answered by the reference says `{REFERENCE}`")
    names = files_named(case)
    for section in case.sections:
        if section.name not in names:
            raise Malformed(section.line, f"no command or other file names this file: {section.name}")
    return case


def read_shared():
    """The files that several cases name, by name."""
    files = {}
    lines = (FOLDER / "shared.files").read_text().split("\n")
    if lines[-1] != "":
        raise Malformed(len(lines), "the last line of shared.files has no end")
    for section in sections_of(lines[:-1])[1]:
        files[section.name] = section.data(files)
    return files
