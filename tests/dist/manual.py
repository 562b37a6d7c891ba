"""Compares the manual pages of docs/man/ with what they describe.

- ima-agent.1: commands, synopses, options with their values and defaults, and statuses are those of the program's help, which has at most 40
  lines for a command. An option of several commands may be among the shared ones. Lines of errors are those of docs/errors.txt. The page names
  the files that have the rest, which a release has.
- ima_verify.3: functions with their types are those of the header. It names no other function, and no constant that the header lacks.
- ima-attest.1, ima-enroll.1, ima-collect.1: the options are those of the usage.
- fleet-verify.1, ima-report.1: options with their values and defaults are those of the help. The statuses of the first are those of
  docs/fleet.md, of the second those of its help."""

import os
import re
import subprocess

import help as helps
import pages
from harness import ROOT
from header import CONSTANT, constants_of, functions_of, header_of

MACROS = re.compile(r"^\.(?:It|Li|Ql|Pa|Cm|Ar|Fl|Dv|Fn|Fa|Dq|Xr|Pq|Sx)\b")
# The functions of the header that make inputs.
HELPERS = {"ima_verify_text", "ima_verify_none"}
# The part of ima-agent.1 with options of several commands, and what it refers to.
SHARED = "Shared options"
PAGES = {"attest.md", "errors.txt", "json.md", "layouts.txt", "reports.txt", "schema.json"}
RESULTS = re.compile(r"^enum ima_verify_result \{.*?^\};", re.MULTILINE | re.DOTALL)
DEFINED = re.compile(r"^#define (IMA_VERIFY_\w+)", re.MULTILINE)
MOST_LINES = 44  # (of a command's help)
# An option in the help of a command in Python, and its default.
PYTHONS = re.compile(r"^  (?:-(?P<short>\w), )?--(?P<name>[a-z0-9-]+)(?: (?P<value>[A-Z_]+))?(?: {2,}(?P<help>\S.*))?$")
DEFAULT = re.compile(r"\(default: ([\w-]+)")
WORDS = re.compile(r"(?<!\S)(?:No|Ar|Cm|Li|Ql)(?!\S) ?")


class Page:
    """A page in mdoc: its lines by section and subsection."""

    def __init__(self, name):
        self.name, self.parts = name, {}
        part = []
        for line in (ROOT / "docs/man" / name).read_text().splitlines():
            if line.startswith((".Sh ", ".Ss ")):
                part = self.parts.setdefault(line[4:], [])
            else:
                part.append(line)

    def part(self, title):
        return self.parts.get(title, [])

    def items(self, title):
        """The items of a part's lists: the line of each after `.It`, and its text."""
        items = []
        for line in self.part(title):
            if line.startswith(".It "):
                items.append((line[4:], []))
            elif items and not line.startswith((".El", ".Pp", ".Bl")):
                items[-1][1].append(line)
        return [(head, plain(lines)) for head, lines in items]


def plain(lines):
    """The words of lines of mdoc, on one line, without the macros that begin a line or stand between words."""
    words = " ".join(WORDS.sub("", MACROS.sub("", line).strip()) for line in lines)
    return re.sub(r" ([,.;:])", r"\1", words)


def differences(title, wanted, found):
    """What one has and the other lacks."""
    for each in wanted:
        if each not in found:
            yield f"{title}: lacks {each}"
    for each in found:
        if each not in wanted:
            yield f"{title}: has {each}, which is not there"


def options_in(items):
    """The options that items tell of, with whether each has a value."""
    options = {}
    for head, text in items:
        if head.startswith("Fl "):
            names = re.findall(r"-([a-z][a-z0-9-]*)", head)
            options.update((name, (" Ar " in head, text)) for name in names)
    return options


def check_options(title, wanted, items):
    """The options of a command: names, whether they have a value, defaults, and the values that can be."""
    found = options_in(items)
    yield from differences(title, [option.name for option in wanted], list(found))
    for option in wanted:
        has_value, text = found.get(option.name, (bool(option.value), None))
        if has_value != bool(option.value):
            yield f"{title} --{option.name}: does it have a value?"
        for word in (*option.values, *([option.default] if option.default else [])):
            if text is not None and not re.search(rf"(?<![\w-]){re.escape(word)}(?![\w-])", text):
                yield f"{title} --{option.name}: lacks {word}"


def synopses(page):
    """By command, what the synopsis says of its options and arguments."""
    uses, command = {}, None
    for line in page.part("SYNOPSIS"):
        if line.startswith(".Cm "):
            command = line[4:]
            uses[command] = ([], [])
        elif line == ".Nm":
            command = None
        elif command:
            options, arguments = uses[command]
            options += re.findall(r"Fl -([a-z0-9-]+)", line)
            if line.startswith((".Ar", ".Op Ar")):
                arguments += line.split("Ar", 1)[1].split() or ["file"]
    return uses


def check_synopses(page, commands):
    found = synopses(page)
    for command in commands:
        options, arguments = found.get(command.name, ([], []))
        title = f"{page.name}: synopsis of {command.name}"
        yield from differences(title, [option.name for option in command.options if option.name != "help"], options)
        yield from differences(title, [name.strip("<[]>.").lower() for name in command.arguments], arguments)


def check_errors(page):
    """The lines of errors are those of docs/errors.txt."""
    errors = (ROOT / "docs/errors.txt").read_text()
    lines = re.findall(r"^  (?:refused|failed): (.*?) +(?:[a-z_0-9]+|-) +[0-9]  ", errors, re.MULTILINE)
    said = plain(page.part("DIAGNOSTICS")).lower()
    yield from (f"{page.name}: lacks the line of a fault: {line}" for line in lines if line.lower() not in said)
    if len(lines) < 10:
        yield "docs/errors.txt: where are the lines of errors?"


def check_pages(page):
    """The page names these files, which a release puts where the page says."""
    named = {name for part in page.parts.values() for line in part for name in re.findall(r"\bPa ([^\s,]+)", line)}
    yield from differences(f"{page.name}: pages", sorted(PAGES), sorted(name for name in named if re.fullmatch(r"[\w-]+\.(?:txt|md|json)", name)))
    yield from (f"{page.name}: a release lacks {name}" for name in sorted(PAGES - {*pages.PAGES}))
    if f"{pages.DOCS}/" not in named:
        yield f"{page.name}: does not name {pages.DOCS}/"


def check_lengths(program, commands):
    """The help of the program, and of each command, is short."""
    for words in ([], *([command.name] for command in commands)):
        lines = helps.help_of(program, *words).count("\n")
        if lines > MOST_LINES:
            yield f"the help of {' '.join(words) or 'the program'} has {lines} lines"


def check_program(program):
    whole, commands = helps.read_program(program)
    page = Page("ima-agent.1")
    titles = [title for title in page.parts if title.islower()]
    yield from differences(page.name, [command.name for command in commands], titles)
    for command in commands:
        options = [option for option in command.options if option.name != "help"]
        yield from check_options(f"{page.name}: {command.name}", options, [*shared_by(page, command), *page.items(command.name)])
    yield from check_shared(page, commands)
    yield from check_options(page.name, whole.options, page.items("Other options"))
    yield from check_synopses(page, commands)
    yield from check_errors(page)
    yield from check_pages(page)
    yield from check_lengths(program, commands)
    statuses = {number: None for command in [whole, *commands] for number in command.statuses}
    yield from differences(f"{page.name}: statuses", list(statuses), [head for head, _ in page.items("EXIT STATUS")])


def shared_by(page, command):
    """The shared options that a command has."""
    names = {option.name for option in command.options}
    return [item for item in page.items(SHARED) if names & options_in([item]).keys()]


def check_shared(page, commands):
    """Each shared option is of several commands."""
    for name in options_in(page.items(SHARED)):
        if sum(name in {option.name for option in command.options} for command in commands) < 2:
            yield f"{page.name}: {SHARED}: {name} is not of several commands"


def check_library():
    page = Page("ima_verify.3")
    lines = [line for part in page.parts.values() for line in part]
    synopsis = "\n".join(page.part("SYNOPSIS"))
    found = {name: (kind, re.findall(r'"(.*)"', arguments)) for kind, name, arguments in re.findall(
        r'^\.Ft "?([\w ]+)"?\n\.Fo (\w+)\n((?:\.Fa .*\n)*)\.Fc', synopsis, re.MULTILINE)}
    wanted = functions_of(ROOT)
    yield from differences(page.name, list(wanted.items()), list(found.items()))
    told = set(re.findall(r"\bFn (\w+)", "\n".join(lines))) - HELPERS
    yield from (f"{page.name}: says nothing of {name}" for name in wanted if name not in told)
    yield from (f"{page.name}: tells of {name}, which the header lacks" for name in sorted(told - set(wanted)))
    header = header_of(ROOT)
    results = re.findall(r"^\.It Dv (\w+) No \((\d+)\)", "\n".join(page.part("RETURN VALUES")), re.MULTILINE)
    yield from differences(f"{page.name}: results", CONSTANT.findall(RESULTS.search(header)[0]), results)
    named = set(re.findall(r"\bIMA_VERIFY_\w+", "\n".join(lines)))
    lacking = named - {*constants_of(ROOT), *DEFINED.findall(header)}
    yield from (f"{page.name}: names {name}, which the header lacks" for name in sorted(lacking))


def check_usage(name, usage):
    """A page's options are those that a usage names."""
    wanted = dict.fromkeys(re.findall(r"(?<![\w-])--([a-z][a-z0-9-]*)", usage))
    found = [option for option in options_in(Page(name).items("DESCRIPTION")) if len(option) > 1]
    yield from differences(name, list(wanted), found)
    if not wanted:
        yield f"{name}: there is no usage to compare it with"


def check_help(name, section, text):
    """A page's options, in this section, are those of the help of a command in Python, with values and defaults."""
    found = helps.joined(text.splitlines(), PYTHONS)
    options = [helps.Option(option["name"], option["short"], option["value"], " ".join([option["help"] or "", *more]), None, ())
               for option, more in found]
    defaults = [DEFAULT.search(option.help) for option in options]
    options = [option._replace(default=default[1].lower() if default else None) for option, default in zip(options, defaults)]
    yield from check_options(f"{name}: {section}", options, Page(name).items(section))
    if not options:
        yield f"{name}: there is no help to compare {section} with"


def check_statuses(name, text, pattern):
    """A page's statuses are those that a text has by this pattern."""
    wanted = re.findall(pattern, text, re.MULTILINE)
    yield from differences(f"{name}: statuses", wanted, [head for head, _ in Page(name).items("EXIT STATUS")])
    if not wanted:
        yield f"{name}: there are no statuses to compare it with"


def said_by(*words):
    wide = {**os.environ, "COLUMNS": "1000"}
    return subprocess.run(words, env=wide, stdin=subprocess.DEVNULL, stdout=subprocess.PIPE, stderr=subprocess.STDOUT).stdout.decode()


def fleet_faults(python):
    """Where the pages differ from the fleet's commands, which the words in `python` run."""
    fleet, report = "fleet-verify.1", "ima-report.1"
    for section, words in (("DESCRIPTION", []), ("nonces", ["nonces"]), ("page", ["page"])):
        yield from check_help(fleet, section, said_by(*python, ROOT / "fleet/verify.py", *words, "--help"))
    yield from check_statuses(fleet, (ROOT / "docs/fleet.md").read_text(), r"^\| ([0-9]+) \|")
    text = said_by(*python, ROOT / "fleet/report.py", "--help")
    yield from check_help(report, "DESCRIPTION", text)
    yield from check_statuses(report, text.partition("Exit status:")[2], r"\b([0-9]+) if ")


def faults(program):
    """Where the pages differ from this program, the header and the scripts of attest/."""
    yield from check_program(program)
    yield from check_library()
    for name, script in (("ima-attest.1", "verify"), ("ima-enroll.1", "enroll"), ("ima-collect.1", "collect")):
        yield from check_usage(name, said_by(ROOT / "attest" / script))
