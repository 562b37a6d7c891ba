"""The arguments of the program ('Commands', 'Options')."""

import re
from typing import Callable, NamedTuple, Optional

from .faults import USAGE
from .registers import BY_NAME

FLAG = None
KNOWN = "--known"
OLD_KERNEL = "--old-kernel"
EXPLAIN = "--explain"
# An option of one letter, and its name.
SHORT = {"0": "--null", "q": "--quiet"}


class HelpAsked(Exception):
    """The arguments ask for help."""


class VersionAsked(Exception):
    """The arguments ask for the version."""


class Option(NamedTuple):
    """An option: what its value is read as, where None is a wrong value, the value without it, and whether it has to be there. One that may
    come again has a list of values."""

    read: Optional[Callable]
    default: object
    is_required: bool = False
    is_repeated: bool = False


class Command(NamedTuple):
    fewest_names: int
    most_names: Optional[int]
    options: dict


class Words(NamedTuple):
    """Arguments that are taken: the command, the names, and a value for each option of the command."""

    command: str
    names: list
    values: dict


def one_of(*values):
    return lambda text: text if text in values else None


def number_within(least, most):
    def read(text):
        is_within = re.fullmatch(r"\+?[0-9]+", text) and least <= int(text) <= most
        return int(text) if is_within else None

    return read


# What a quote has to be given with, and what goes only with one.
BESIDE_QUOTE = {"--list": Option(str, None), "--nonce": Option(str, None), "--require": Option(str, None)}
# By what a quote's signature is known to be valid, or by whose word.
SIGNING = {"--key": Option(str, None), "--signature": Option(str, None), "--signature-checked": Option(FLAG, False)}
ONLY_BESIDE_QUOTE = {**BESIDE_QUOTE, "--sha1": Option(FLAG, False), OLD_KERNEL: Option(FLAG, False), **SIGNING}
# What tells which data of a log is confirmed.
CONFIRMING = {"--expected": Option(str, None), "--quote": Option(str, None), **ONLY_BESIDE_QUOTE}

# When a report has colours.
COLOR = {"--color": Option(one_of("auto", "always", "never"), "auto")}

# Whether the H-CRTM event of a log tells where the machine started.
HCRTM = {"--hcrtm": Option(FLAG, False)}

# How a verdict is shown as text, if not by the plain report.
LOOKS = {"--summary": Option(FLAG, False), "--terminal": Option(FLAG, False)}

COMMANDS = {
    "measure": Command(1, None, {
        **HCRTM,
        "--alg": Option(one_of(*BY_NAME), "sha256"),
        "--template": Option(one_of("ima", "ima-ng", "ima-sig"), "ima-ng"),
        "--workers": Option(number_within(1, 8), 2),
        "--limit": Option(number_within(1, 4294967295), 100000),
        "--print": Option(one_of("ascii", "binary", "registers"), "ascii"),
        "--files-from": Option(str, None),
        "--null": Option(FLAG, False),
        "--json": Option(FLAG, False),
    }),
    "verify": Command(3, 3, {
        **HCRTM,
        "--require": Option(str, None),
        OLD_KERNEL: Option(FLAG, False),
        KNOWN: Option(str, [], is_repeated=True),
        "--prefix": Option(FLAG, False),
        "--save": Option(str, None),
        "--resume": Option(str, None),
        EXPLAIN: Option(FLAG, False),
        **LOOKS,
        **COLOR,
        "--json": Option(FLAG, False),
    }),
    "attest": Command(3, 4, {
        **HCRTM,
        "--nonce": Option(str, None, is_required=True),
        "--require": Option(str, None, is_required=True),
        KNOWN: Option(str, [], is_repeated=True),
        "--sha1": Option(FLAG, False),
        OLD_KERNEL: Option(FLAG, False),
        **SIGNING,
        "--prefix": Option(FLAG, False),
        "--save": Option(str, None),
        "--resume": Option(str, None),
        EXPLAIN: Option(FLAG, False),
        **LOOKS,
        **COLOR,
        "--json": Option(FLAG, False),
    }),
    "locate": Command(3, 3, {**HCRTM, **COLOR, "--require": Option(str, None), EXPLAIN: Option(FLAG, False), "--json": Option(FLAG, False)}),
    "expected": Command(1, 1, {"--registers": Option(str, "all"), "--json": Option(FLAG, False)}),
    "key": Command(1, 1, {
        "--endorsement": Option(FLAG, False),
        "--print": Option(one_of("all", "name", "pem"), "all"),
        "--json": Option(FLAG, False),
    }),
    "registers": Command(1, 1, {**HCRTM, "--json": Option(FLAG, False)}),
    "events": Command(1, 1, {
        **HCRTM,
        "--data": Option(FLAG, False),
        EXPLAIN: Option(FLAG, False),
        **CONFIRMING,
        "--json": Option(FLAG, False),
    }),
    "boot": Command(1, 1, {
        **HCRTM,
        **CONFIRMING,
        "--before": Option(str, None),
        "--json": Option(FLAG, False),
    }),
    "show": Command(1, 1, {"--partial": Option(FLAG, False), "--json": Option(FLAG, False)}),
    "list": Command(1, 1, {}),
    "log": Command(1, 1, {}),
    "replay": Command(1, 2, {
        "--require": Option(str, None),
        KNOWN: Option(str, [], is_repeated=True),
        EXPLAIN: Option(FLAG, False),
        **LOOKS,
        **COLOR,
        "--json": Option(FLAG, False),
    }),
}


for each in COMMANDS.values():
    each.options["--quiet"] = Option(FLAG, False)


def asks_for_help(word):
    return word == "--help" or word.startswith("-h")


def asks_for_version(word):
    return word == "--version" or word.startswith("-V")


def read_words(words):
    """What arguments ask for, of which there is at least one; or the fault, `HelpAsked` or `VersionAsked`."""
    name, *rest = words
    if asks_for_help(name):
        raise HelpAsked
    if asks_for_version(name):
        raise VersionAsked
    if name not in COMMANDS:
        raise USAGE
    command = COMMANDS[name]
    names, values = read_arguments(command, rest)
    if len(names) < command.fewest_names or lacks_another(name, names, values) or lacks_required(command, values):
        raise USAGE
    if is_json_of_binary(values) or is_shown_twice(values) or (name == "events" and has_wrong_pair(values)) or not is_hexadecimal(values.get("--nonce", "")):
        raise USAGE
    if (name in ("events", "boot") and has_wrong_quote(values)) or has_wrong_signing(values):
        raise USAGE
    if name in ("events", "boot") and reads_standard_input_twice(names, values):
        raise USAGE
    defaults = {option: it.default for option, it in command.options.items()}
    return Words(name, names, {**defaults, **values})


def lacks_another(command, names, values):
    """Whether an option is there without the one, or the name, that it goes with."""
    if not {KNOWN, OLD_KERNEL}.isdisjoint(values) and "--require" not in values:
        return True
    if command == "replay":
        return len(names) < 2 and not {"--require", EXPLAIN, "--summary"}.isdisjoint(values)
    return "--null" in values and "--files-from" not in values


def lacks_required(command, values):
    """Whether an option is not there that has to be."""
    return any(option.is_required and name not in values for name, option in command.options.items())


def is_hexadecimal(text):
    """Whether a text is pairs of hexadecimal digits, of which there may be none."""
    return re.fullmatch("(?:[0-9a-fA-F]{2})*", text) is not None


def is_json_of_binary(values):
    """Whether the binary list shall be JSON, which it never is."""
    return "--json" in values and values.get("--print") == "binary"


def is_shown_twice(values):
    """Whether a verdict shall be shown in two ways."""
    return sum(look in values for look in ("--json", *LOOKS)) > 1


def has_wrong_pair(values):
    """Whether events are to be explained in another form, or expected registers or a quote are given where nothing is said of them."""
    if EXPLAIN in values:
        return "--data" in values or "--json" in values
    return ("--expected" in values or "--quote" in values) and "--json" not in values


def has_wrong_quote(values):
    """Whether a quote is given beside expected registers, or lacks what it has to be given with; or what goes only with one is given without."""
    if "--quote" in values:
        return "--expected" in values or not BESIDE_QUOTE.keys() <= values.keys()
    return not ONLY_BESIDE_QUOTE.keys().isdisjoint(values)


def has_wrong_signing(values):
    """Whether a key is given without a signature, or the other way round, or both beside the word that the signature was verified."""
    return ("--key" in values) != ("--signature" in values) or ("--key" in values and "--signature-checked" in values)


def reads_standard_input_twice(names, values):
    """Whether two inputs are standard input, or the log of an earlier boot is: it is that of LOG alone, or of EXPECTED."""
    return values.get("--before") == "-" or (names == ["-"] and values.get("--expected") == "-")


def read_arguments(command, words):
    """The names and the values of options, from left to right."""
    names, values = [], {}
    has_options_left, words = True, list(words)
    while words:
        word = words.pop(0)
        if not has_options_left or not word.startswith("-") or word == "-":
            names.append(word)
            if command.most_names is not None and len(names) > command.most_names:
                raise USAGE
        elif word == "--":
            has_options_left = False
        elif asks_for_help(word):
            raise HelpAsked
        elif word.startswith("--"):
            read_option(command, word, words, values)
        else:
            read_letters(command, word[1:], values)
    return names, values


def read_letters(command, letters, values):
    """Adds the options of one letter each that an argument has after its dash. None of them takes a value."""
    for letter in letters:
        if asks_for_help(f"-{letter}"):
            raise HelpAsked
        read_option(command, SHORT.get(letter, ""), [], values)


def read_option(command, word, words, values):
    """Adds the value of an option, which may be the first of the words after it."""
    name, has_value, text = word.partition("=")
    option = command.options.get(name)
    if option is None or (name in values and not option.is_repeated) or (option.read is FLAG and has_value):
        raise USAGE
    if option.read is FLAG:
        values[name] = True
        return
    if not has_value:
        if not words or (words[0].startswith("-") and words[0] != "-"):
            raise USAGE
        text = words.pop(0)
    value = option.read(text)
    if value is None:
        raise USAGE
    values[name] = [*values.get(name, []), value] if option.is_repeated else value
