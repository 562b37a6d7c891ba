#!/usr/bin/env python3
"""Requires that docs/schema.json describes each line of JSON, and nothing else, by Debian's python3-jsonschema.

tests/cases/schema.py

Lines are those of the cases of `--json`, what `events --explain` and `boot` show as JSON in the text of cases, and what `tests/reference/` answers
on some of the inputs of json_lines.py and of tests/faults/: events.py, damaged.py, growing.py and known.py. (Those scripts require that the
program gives these answers.) Each line must be valid by the schema, and of the kind that its command prints there, and of no other. It must
also be valid where each object has no members but those of the schema, and its members must be in the schema's order.

The lines of the cases must have each member, and each value that the schema names, but those in NOWHERE. A member that is not required must be
absent somewhere. The schema must describe each member. json.md, event-data.md, layouts.txt and errors.txt must name what it has, and nothing
else. The script counts lines, members and values.

Each line of a report as text, and of `locate`, in the cases must have a form of docs/reports.txt, and each form there must be a line of a case."""

import json
import re
import sys
import tempfile
from pathlib import Path

TESTS = Path(__file__).resolve().parents[1]
sys.path[:0] = [str(TESTS), str(TESTS / "faults")]
import form  # noqa: E402
import harness  # noqa: E402
import reference  # noqa: E402
from answers import agrees  # noqa: E402
from harness import ROOT  # noqa: E402
from line_kinds import DEFINED, ERROR, KINDS, OUTPUTS, SCHEMA, fault_of_output, kinds_of, lines_in, name_of, visited, words_in  # noqa: E402
from sampled_lines import SOURCES, Answers  # noqa: E402

try:
    from jsonschema import Draft202012Validator as Validator
except ImportError:
    Validator = None

# Values that no case can have: an error of the program itself, and errors of the library alone.
NOWHERE = {("fault.kind", "gather"), ("fault.kind", "text_list"), ("fault.kind", "log_form")}
# What `events --explain` and `boot` show as JSON within the lines of their text.
IN_TEXT = {"events": re.compile(r"  (\{.*\})"), "boot": re.compile(r"[a-z_]+ [^{]*?(\{.*\})")}
CONTENT = "content"
EXAMPLE = re.compile(r"^    (\{.*\})$", re.MULTILINE)
TABLE = re.compile(r"^(\|.*\| Member \|)\n\|[-|]*\n((?:\|.*\n)*)", re.MULTILINE)
# How the last line of a report begins, by the parts of docs/reports.txt; the part of each command; a form of a line there, and what its words are.
SUMMARY = "With --summary"
ENDS = {"verify": ("verdict ", "signature not checked"), SUMMARY: ("match: ", "differ: ", "no verdict: "), "locate": ("located", "not located")}
REPORTS = {"verify": "verify", "attest": "verify", "replay": "verify", "locate": "locate"}
FORM = re.compile(r"^  (\S.*?)(?:  |$)", re.MULTILINE)
LEFT_OUT = "..."
WORDS = {"BANK": "sha(?:1|256|384|512)", "HEX": r"[0-9a-f]*(?:\.\.\.)?", "LINE": r"\S.*", "STATE": "(?:un)?safe", "R..": r"\d+(?: \d+)*", "REASON;": "[^;]+;",
         "COUNTS": r"\d+ of \d+ PCRs agree, (?:\d+ entr(?:y|ies)|\d+ of \d+ entries judged)(?:, \d+ unknown)?"}
# The definition for each layout of event data.
LAYOUTS = {"A command": "command_data", "A variable": "variable", "An image": "image_data", "A partition table": "gpt", "A partition": "partition",
           "A blob, or a described one": "blob", "A tagged event": "tagged", "A load option": "load_option", "A signature": "signature",
           "A certificate": "certificate", "Signature lists, one after another": "signature_list", "Tables, or described ones": "handoff",
           "A table": "vendor_table"}


def strict(part):
    """A part of the schema in which each object has no other members."""
    if isinstance(part, list):
        return [strict(each) for each in part]
    if not isinstance(part, dict):
        return part
    closed = {"additionalProperties": False} if part.get("type") == "object" else {}
    return {name: strict(each) for name, each in part.items()} | closed


def validators_of(schema):
    """The validator of each definition of a schema."""
    return {name: Validator({"$ref": f"#/$defs/{name}", "$defs": schema["$defs"]}) for name in schema["$defs"]}


def fault_by(validator, value):
    """The first fault of a value, or None."""
    fault = next(validator.iter_errors(value), None)
    return None if fault is None else f"{fault.json_path}: {fault.message[-200:]}"


# Lines of the cases.


def outputs_of_cases():
    """The case and the arguments of each command of a case with `--json`, and the lines of its output."""
    for case, command, lines in commands_of_cases(lambda words: "--json" in words):
        yield f"{case.name}:{command.line}", command.words, [json.loads(line) for line in lines if line.startswith("{")]


def contents_of_cases():
    """The case of each content that the text of a case shows, and the content."""
    for case, command, lines in commands_of_cases(lambda words: words[:1] in (["events"], ["boot"]) and "--json" not in words):
        found = filter(None, (IN_TEXT[command.words[0]].fullmatch(line) for line in lines))
        yield from ((f"{case.name}:{command.line}", whole(json.loads(match[1]))) for match in found)


def whole(value):
    """What a text shows, as JSON has it: long bytes, of which a text has the beginning and the number, are shown as the beginning."""
    if isinstance(value, list):
        return [whole(each) for each in value]
    if not isinstance(value, dict):
        return value
    return value["begins"] if value.keys() == {"begins", "size"} else {name: whole(each) for name, each in value.items()}


def commands_of_cases(is_sought):
    """The cases, and the commands with such arguments, with the lines of their output that have nothing left out."""
    shared = form.read_shared()
    for case in map(form.read_case, form.case_files()):
        for command in case.commands:
            if is_sought(command.words):
                yield case, command, lines_of_case(case, command, shared)


def lines_of_case(case, command, shared):
    """The lines of a command: those of the case, or of the file that it names; or the reference's, if the case leaves out some of them, and it has an
    answer."""
    wanted = command.wanted
    if command.output and command.output in (section.name for section in case.sections):
        files = dict(shared)
        for section in case.sections:
            files[section.name] = section.data(files)
        wanted = lines_in(files[command.output])
    if not any("..." in line for line in wanted):
        return wanted
    try:
        with tempfile.TemporaryDirectory() as folder:
            case.lay(Path(folder), shared)
            lines = lines_in(reference.answer(command.words, folder)[1])
    except reference.Unanswered:
        return [line for line in wanted if "..." not in line]
    if not agrees(wanted, lines) and not agrees(wanted[: len(lines)], lines):
        raise form.Malformed(command.line, "the reference answers otherwise")
    return lines


def reports_of_cases():
    """The part of docs/reports.txt for each report that a case shows as text, the case, and the lines of the report that are shown."""
    for case in map(form.read_case, form.case_files()):
        for command in case.commands:
            part = SUMMARY if "--summary" in command.words else REPORTS.get(command.words[0] if command.words else None)
            if part and command.wanted and command.wanted[-1].startswith(ENDS[part]):
                yield part, f"{case.name}:{command.line}", [line for line in command.wanted if line != LEFT_OUT]


def forms_of_reports():
    """The forms of the lines in each part of docs/reports.txt."""
    _, *parts = (ROOT / "docs/reports.txt").read_text().split("\n\n")
    return {part.split(",")[0].split(":")[0]: {line: pattern_of(line) for line in FORM.findall(part)} for part in parts}


def pattern_of(line):
    """The pattern of a line of this form: a capital letter stands for a number."""
    words = (WORDS.get(word, r"\d+" if re.fullmatch("[A-Z]", word) else re.escape(word)) for word in line.split(" "))
    return re.compile(" ".join(f"(?:{word})" for word in words))


# What the schema has.


def parts_of(part, name):
    """Each part of a definition, with the name that `visited` gives it."""
    yield name, part
    for member, each in part.get("properties", {}).items():
        yield from parts_of(each, f"{name}.{member}")
    for each in [*part.get("oneOf", ()), *([part["items"]] if "items" in part else [])]:
        yield from parts_of(each, name)


PARTS = [pair for name, part in DEFINED.items() for pair in parts_of(part, name)]
OBJECTS = {name: part for name, part in PARTS if "properties" in part}


def values_of(part):
    """The values that a part names."""
    if part.get("type") == "boolean":
        return [False, True]
    return [part["const"]] if "const" in part else part.get("enum", [])


def values_named():
    """Each value that the schema names, with the name of the part that has it."""
    for name, part in PARTS:
        yield from ((name, value) for value in values_of(part))


def is_described(part):
    """Whether a part, or the definition that it refers to, says what it is."""
    return "description" in part or "title" in part or ("$ref" in part and is_described(DEFINED[name_of(part)]))


def within(part):
    """The definitions that a part refers to, and those that these refer to."""
    for name in re.findall(r'"#/\$defs/(\w+)"', json.dumps(part)):
        yield from (name, *within(DEFINED[name]))


class Seen:
    """The members of the objects in some lines, by the parts of the schema, and which of its values they have."""

    def __init__(self):
        self.objects, self.values = {name: [] for name in OBJECTS}, set()

    def add(self, value, kind):
        for name, part, inner in visited(DEFINED[kind], value, kind):
            if name in OBJECTS and isinstance(inner, dict):
                self.objects[name].append(inner.keys())
            elif inner in values_of(part):
                self.values.add((name, inner))

    def faults_of(self, name, member):
        """What is wrong with how often a member is there."""
        there = [member in members for members in self.objects[name]]
        if not any(there):
            yield f"{name}.{member}: no line of the cases has it"
        elif all(there) != (member in OBJECTS[name].get("required", ())):
            yield f"{name}.{member}: it is {'always there' if all(there) else 'absent somewhere'} in the cases, and the schema says otherwise"


# What pages have.


def members_of_pages():
    """The members that layouts.txt and event-data.md have, by the definition in the schema."""
    content, values = TABLE.findall((ROOT / "docs/event-data.md").read_text())
    members = members_of_layouts()
    members["variable"] += members_in_column(*values)
    return {**members, "content": members_in_column(*content)}


def members_of_layouts():
    """The members of each layout of event data."""
    [part] = (part for part in (ROOT / "docs/layouts.txt").read_text().split("\n\n") if part.startswith("  bytes     member"))
    head, *lines = part.splitlines()
    column, layouts = slice(head.index("member"), head.index("field")), {}
    for line in lines:
        if not line.startswith(" "):
            title = line.partition(":")[0]
            members = layouts.setdefault(LAYOUTS.get(title, title), [])
        else:
            members += re.findall(r"\w+", line[column])
    return layouts


def members_in_column(head, rows):
    """The members in a table, each once."""
    place = head.split("|").index(" Member ")
    return list(dict.fromkeys(name for row in rows.splitlines() for name in re.findall(r"`(\w+)`", row.split("|")[place])))


def kinds_by_commands(page):
    """Each command in the table of json.md, and the kinds of its lines."""
    for names, kinds in re.findall(r"^\| (`.*?) \| (.*) \|$", page, re.MULTILINE):
        yield from ((name, {*re.findall(r"`(\w+)`", kinds)} & {*KINDS}) for name in re.findall(r"`(\w+)`", names))


def members_described(name):
    """The members of a definition; `_hex` goes with the name before it."""
    return list(dict.fromkeys(member.removesuffix("_hex") for member in DEFINED[name]["properties"])) if name in DEFINED else []


class Schema(harness.TestCase):
    def setUp(self):
        if Validator is None:
            self.fail("this machine has no jsonschema for Python (Debian: python3-jsonschema)")
        self.open, self.closed = validators_of(SCHEMA), validators_of(strict(SCHEMA))

    def fault_of_value(self, value, kind):
        """What is wrong with a value of a kind, or None."""
        return fault_by(self.open[kind], value) or fault_by(self.closed[kind], value)

    def faults_of_output(self, title, words, values):
        """What is wrong with each line of a command."""
        if fault := fault_of_output(words, values):
            yield f"{title}: {fault}"
        for value in values:
            kinds = [kind for kind in KINDS if self.open[kind].is_valid(value)]
            faults = [self.fault_of_value(value, kind) for kind in kinds] if len(kinds) == 1 else [f"of the kinds {kinds}"]
            yield from (f"{title}: {fault}: {json.dumps(value)[:300]}" for fault in faults if fault)

    def check_outputs(self, title, outputs):
        """Counts the lines of outputs, each with its title and the arguments."""
        outputs = list(outputs)
        faults = [fault for output in outputs for fault in self.faults_of_output(*output)]
        count = sum(len(values) for *_, values in outputs)
        self.check_all(f"{title}: {len(outputs)} outputs", max(count - len(faults), 0), faults)
        self.check(f"{title}: there are lines", count > 0)
        return outputs

    def test_schema(self):
        """the schema is one, and describes each part"""
        Validator.check_schema(SCHEMA)
        self.check("parts that nothing describes", [name for name, part in PARTS if not is_described(part) and part.keys() != {"required"}], [])
        integers = [(name, part) for name, part in PARTS if part.get("type") == "integer"]
        self.check("numbers without bounds", [name for name, part in integers if not {"minimum", "maximum"} <= part.keys()], [])
        used = {reference for reference in re.findall(r'"#/\$defs/(\w+)"', json.dumps(SCHEMA))}
        self.check("definitions that nothing uses", DEFINED.keys() - used, set())
        self.check("objects within others", [name for name in OBJECTS if "." in name], [])

    def test_cases(self):
        """lines of the cases, their members and their values"""
        seen = Seen()
        for _, _, values in self.check_outputs("lines of the cases", outputs_of_cases()):
            for value in values:
                for kind in kinds_of(value):
                    seen.add(value, kind)
        contents = list(contents_of_cases())
        faults = [f"{title}: {fault}" for title, value in contents if (fault := self.fault_of_value(value, CONTENT))]
        for _, value in contents:
            seen.add(value, CONTENT)
        self.check_all("contents in the text of cases", len(contents) - len(faults), faults)
        members = [(name, member) for name, part in OBJECTS.items() for member in part["properties"]]
        faults = [fault for member in members for fault in seen.faults_of(*member)]
        self.check_all("members", len(members) - len(faults), faults)
        named = set(values_named())
        faults = [f"{name}: no line of the cases has the value {value}" for name, value in sorted(named - seen.values - NOWHERE, key=str)]
        faults += [f"{name}: the cases have the value {value}" for name, value in NOWHERE & seen.values]
        self.check_all("values", len(named) - len(faults), faults)

    def test_reports(self):
        """docs/reports.txt has the lines of reports in the cases"""
        forms, seen, passed, faults = forms_of_reports(), set(), 0, []
        self.check("parts of reports.txt", sorted(forms), sorted(ENDS))
        for part, title, lines in reports_of_cases():
            for line in lines:
                found = {(part, name) for name, pattern in forms[part].items() if pattern.fullmatch(line)}
                passed += bool(found)
                faults += [] if found else [f"{title}: no form of reports.txt has: {line}"]
                seen |= found
        self.check_all("lines of reports", passed, faults)
        self.check("forms that no case has", {(part, name) for part in forms for name in forms[part]} - seen, set())

    def test_samples(self):
        """lines that the reference answers"""
        for name, ask in SOURCES.items():
            room = Answers(self.folder())
            ask(room)
            self.check_outputs(f"lines of {name}", room.told)
            for title in room.unanswered:
                with self.subTest(title=title):
                    self.lacks("cryptography for Python")

    def test_pages(self):
        """pages name what the schema has"""
        for name, found in members_of_pages().items():
            self.check(f"members of {name}", found, members_described(name))
        unlisted = sorted(name for name in {CONTENT, *within(DEFINED[CONTENT])} & OBJECTS.keys() - members_of_pages().keys())
        self.check("objects of contents that no page has", unlisted, [])
        page = (ROOT / "docs/json.md").read_text()
        self.check("kinds by commands", dict(kinds_by_commands(page)), {name: {*words_in(output)} - {ERROR} for name, output in OUTPUTS.items()})
        shown = [kinds_of(json.loads(line)) for line in EXAMPLE.findall(page)]
        self.check("kinds that have no example", [kind for kind in KINDS if [kind] not in shown], [])
        self.check("examples that are of no kind", [kinds for kinds in shown if len(kinds) != 1], [])
        errors = (ROOT / "docs/errors.txt").read_text()
        kinds = re.findall(r"^  (?:refused|failed): .*? +([a-z_0-9]+) +[0-9]  ", errors, re.MULTILINE)
        self.check("kinds of errors", set(DEFINED["fault"]["properties"]["kind"]["enum"]) ^ set(kinds), set())


if __name__ == "__main__":
    sys.exit(harness.main())
