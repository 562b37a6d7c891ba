"""The kinds of lines of JSON, by docs/schema.json: which kinds a command prints, and which parts of the schema a line has. That takes no
jsonschema."""

import json
import re

from harness import ROOT
from reference.command_line import read_words
from reference.faults import Fault

SCHEMA = json.loads((ROOT / "docs/schema.json").read_text())
DEFINED = SCHEMA["$defs"]
ERROR = "error"
# The lines of each output, one after another, by their kinds.
OUTPUTS = {
    "verify": "verify",
    "attest": "attest",
    "replay": "replay|pcrs",
    "locate": "places",
    "registers": "pcrs",
    "expected": "pcrs",
    "key": "key|name|pem",
    "events": "header( event)*( error)?",
    "show": "(entry )*(end|error)",
    "measure": "entry( entry)*|pcrs",
    "boot": "(secure_boot firmware_version( image)*( command)* ima_policy( boot_variable)*|claim( claim)*)( alike( changed)*)*",
}
# What an option or a name makes of the output of some commands.
CHOSEN = {
    "replay": lambda asked: "pcrs" if len(asked.names) == 1 else "replay",
    "key": lambda asked: {"all": "key"}.get(asked.values["--print"], asked.values["--print"]),
    "measure": lambda asked: "pcrs" if asked.values["--print"] == "registers" else "entry( entry)*",
}
TYPES = {"object": dict, "array": list, "string": str, "integer": int}


def name_of(part):
    """The definition that a part of the schema refers to."""
    return part["$ref"].rpartition("/")[2]


KINDS = [name_of(part) for part in SCHEMA["oneOf"]]


def lines_in(text):
    """The lines of an output."""
    return text.decode().split("\n")[:-1]


def words_in(pattern):
    """The kinds in a pattern of an output."""
    return re.findall("[a-z_]+", pattern)


def output_of(words):
    """The pattern of the lines for arguments, which may also be an error alone. There are none if arguments are refused, or do not ask for JSON."""
    try:
        asked = read_words(words)
    except Fault:
        return ""
    if not asked.values.get("--json"):
        return ""
    pattern = CHOSEN[asked.command](asked) if asked.command in CHOSEN else OUTPUTS[asked.command]
    return f"{pattern}|{ERROR}"


def has_members(part, names):
    """Whether an object with these members has those that a part of the schema requires, and none that it excludes."""
    if not names.issuperset(part.get("required", ())) or ("not" in part and has_members(part["not"], names)):
        return False
    choices = [part[word] for word in ("anyOf", "oneOf") if word in part]
    return all(any(has_members(one, names) for one in choice) for choice in choices)


def kinds_of(value):
    """The kinds that an object is of, by its members."""
    return [kind for kind in KINDS if isinstance(value, dict) and has_members(DEFINED[kind], set(value))]


def is_chosen(part, value):
    """Whether a value is the constant that a part of the schema is, or has the type of the definition that it refers to."""
    if "const" in part:
        return part["const"] == value
    return "$ref" in part and isinstance(value, TYPES[DEFINED[name_of(part)]["type"]])


def visited(part, value, name):
    """Each part of the schema that a value has, with its name and what has it: a definition has its own name, and what is in it that of the
    members that lead there."""
    while "$ref" in part:
        name = name_of(part)
        part = DEFINED[name]
    yield name, part, value
    for one in part.get("oneOf", ()):
        if is_chosen(one, value):
            yield from visited(one, value, name)
    if isinstance(value, dict):
        members = part.get("properties", {})
        for member in value.keys() & members.keys():
            yield from visited(members[member], value[member], f"{name}.{member}")
    for item in value if isinstance(value, list) else ():
        yield from visited(part["items"], item, name)


def fault_of_members(value, kind):
    """Which object in a line of a kind has members that the schema lacks, or in another order; or None."""
    for name, part, inner in visited(DEFINED[kind], value, kind):
        if "properties" in part and isinstance(inner, dict):
            known = [member for member in part["properties"] if member in inner]
            if known != list(inner):
                return f"{name} has the members {', '.join(inner)}, and by the schema {', '.join(known)}"
    return None


def fault_of_output(words, values):
    """What is wrong with the lines that a command with these arguments prints, by their kinds and members; or None."""
    kinds = [kinds_of(value) for value in values]
    found = " ".join("+".join(each) or "nothing" for each in kinds)
    if not re.fullmatch(output_of(words), found):
        return f"lines of the kinds {found[:300]}, and not {output_of(words)}"
    return next(filter(None, (fault_of_members(value, kind) for value, [kind] in zip(values, kinds))), None)
