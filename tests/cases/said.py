"""What standard error gets of an error, by the tables of docs/errors.txt: what is wrong, and what to do."""

import json
import os
import re

import form
from reference.command_line import read_words
from reference.faults import Fault
from reference.hints import is_regular, mistake_in
from reference.known_files import read_known

# Which inputs the names of a command are; what follows them are files to measure.
INPUTS = {
    "measure": ["log"],
    "verify": ["log", "list", "expected"],
    "attest": ["log", "list", "quote", "expected"],
    "locate": ["log", "list", "expected"],
    "expected": ["expected"],
    "key": ["key"],
    "registers": ["log"],
    "list": ["text"],
    "log": ["form"],
    "events": ["log"],
    "boot": ["log"],
    "show": ["list"],
    "replay": ["list", "expected"],
}

# The commands that take `-` as standard input, and for which inputs.
TAKE_STANDARD_INPUT = {"list": ["text"], "log": ["form"], "expected": ["expected"], "key": ["key"], **dict.fromkeys(("events", "boot"), ["log", "expected"])}

# The rows of the tables: what is wrong, and what to do. Those of expected registers from 4 on name no line.
LOG, FORM, LIST, TEXT, REPLAY, EXPECTED, KNOWN, QUOTE, SIGNATURE, KEY, CHECKPOINT, BOOK, GATHER = map(
    form.rows_of, ("Log", "Form", "List", "Text", "Replay", "Expected", "Known", "Quote", "Signature", "Key", "Checkpoint", "Book", "Gather"))
MEMORY = form.Row("Memory ran out", "Try again with more memory.")
OUT_OF_MEMORY = "".join(f"{words}\n" for words in MEMORY).encode()
NOT_HEX = "Give the log in hexadecimal as xxd -p prints it, or give its file to ima-agent registers."
TOO_LONG = "No input may be longer: check that this is the right one."
NOT_WRITABLE = "Name a FILE in an existing, writable folder on a disk with free space."
NAMES_NOT_UTF8 = "Rename the files whose names are not UTF-8, or leave them out."
NOT_WRITTEN = b"the output could not be written: the disk is full, or the program that reads it has exited\n"
TABLES = (LOG, FORM, LIST, TEXT, REPLAY, EXPECTED, KNOWN, QUOTE, SIGNATURE, KEY, CHECKPOINT, BOOK, GATHER)
ADVICE = {NOT_HEX, TOO_LONG, NOT_WRITABLE, NAMES_NOT_UTF8, *(row.advice for table in TABLES for row in table.values())}

# The numbers of the signature faults that are of the key, and what to do about each; about a key that is no public area, which the first ten of its
# faults are of; and where nobody looked at a signature.
OF_KEYS = (8, 9)
NO_SIGNATURE = "SIG must be what tpm2_quote -s wrote with QUOTE, plain or not; KEY must be the key that made it"
OTHER_SIGNATURE = "KEY does not allow the scheme or the hash of SIG: SIG was made by another key or changed"
SIGNATURE_HINTS = {
    **dict.fromkeys((1, 2, 3, 4), NO_SIGNATURE),
    **dict.fromkeys((5, 6), OTHER_SIGNATURE),
    7: "SIG is from another key or another quote, or one of QUOTE, SIG and KEY was changed",
    8: "ima-agent cannot verify signatures by such keys: verify SIG yourself, then give --signature-checked instead of --key and --signature",
    9: "give the key's public area: NAME.pub from ima-enroll",
}
LAST_OF_AREAS = 10
NO_AREA = "KEY is not a supported public area: give NAME.pub from ima-enroll, or PEM as ima-agent key --print pem prints it"
NO_ATTESTATION_KEY = "KEY is not an attestation key: give NAME.pub from ima-enroll"
UNSIGNED = "the signature of QUOTE was not checked: add --key and --signature to verify it"


def shown(text):
    """The bytes of a text as a terminal is to get them."""
    data = text if isinstance(text, bytes) else text.encode("utf-8", "surrogateescape")
    return b"".join(bytes([each]) if 0x20 <= each <= 0x7E else b"\\x%02x" % each for each in data)


def said_of_error(words, line, folder, given, is_piped=False):
    """What standard error gets of a run of these words that has this fault's line, in bytes: what is wrong, and what to do. None if it is some text of
    clap's. Standard input has these bytes, if it is a file. Of a pipe nothing is said but what the tables have."""
    if line == b"refused: command line":
        return None
    name, cause, advice = fault_in_words(line.decode("utf-8", "surrogateescape"), words, folder)
    said = shown(f"{name}: {cause}" if name is not None else cause) + b"\n"
    advice = shown(advice) + b"\n" if advice else b""
    return said + (not is_piped and mistake_due(words, line, folder, given) or signing_due(words, line) or advice)


def said_of_end(words, status, text, folder, given):
    """The same of a run with this status and output: none below 2."""
    if status < 2:
        return b""
    line = fault_line_of(words, text)
    return said_of_error(words, line, folder, given) if line else f"{UNSIGNED}\n".encode()


def fault_in_words(line, words, folder):
    """The name of the input that a fault is of, or None, what is wrong with it, and what to do, if the tables say that."""
    if line in ("failed: read -", "refused: too long -") and (not words or words[0] in TAKE_STANDARD_INPUT):
        return None, "cannot read standard input" if line.startswith("failed") else "standard input is longer than 64 MiB", None if line.startswith("failed") else TOO_LONG
    if found := re.fullmatch(r"failed: read (.*)", line, re.DOTALL):
        return None, unread(found[1], folder, takes_only_files(words)), None
    if found := re.fullmatch(r"failed: write (.*)", line, re.DOTALL):
        return None, f"cannot write {found[1]}", NOT_WRITABLE
    if found := re.fullmatch(r"refused: too long (.*)", line, re.DOTALL):
        return None, f"{found[1]} is longer than 64 MiB", TOO_LONG
    if found := re.fullmatch(r"refused: not UTF-8 (.*)", line, re.DOTALL):
        return None, f"{found[1]} is not UTF-8", NAMES_NOT_UTF8
    if line == "refused: not hexadecimal":
        return "standard input", "the text is not hexadecimal", NOT_HEX
    if line == "failed: memory":
        return None, *MEMORY
    return row_in_words(line, words, folder)


def row_in_words(line, words, folder):
    """The same of a fault that has a number: its row says what is wrong."""
    inputs, files = names_of(words)
    if found := re.fullmatch(r"refused: log fault (\d+)(?: at event (\d+))?", line):
        return inputs["log"], *LOG[int(found[1])].at("event", found[2])
    if found := re.fullmatch(r"refused: log form fault (\d+)(?: at event (\d+))?", line):
        return inputs["form"], *{**LOG, **FORM}[int(found[1])].at("event", found[2])
    if found := re.fullmatch(r"refused: text list fault (\d+) at line (\d+)", line):
        return inputs["text"], *TEXT[int(found[1])].at("line", found[2])
    if found := re.fullmatch(r"refused: (list|replay) fault (\d+) at entry (\d+)", line):
        return inputs["list"], *(LIST if found[1] == "list" else REPLAY)[int(found[2])].at("entry", found[3])
    if found := re.fullmatch(r"refused: expected fault (\d+)(?: at line (\d+))?", line):
        return inputs["expected"], *EXPECTED[int(found[1])].at("line", found[2])
    if found := re.fullmatch(r"refused: known fault (\d+) at line (\d+)", line):
        return refused_known(words, folder), *KNOWN[int(found[1])].at("line", found[2])
    if found := re.fullmatch(r"refused: quote fault (\d+)", line):
        return inputs["quote"], *QUOTE[int(found[1])].as_sentence()
    if found := re.fullmatch(r"refused: signature fault (\d+)", line):
        number = int(found[1])
        return inputs["key" if number in OF_KEYS else "signature"], *SIGNATURE[number].as_sentence()
    if found := re.fullmatch(r"refused: key fault (\d+)", line):
        return inputs["key"], *KEY[int(found[1])].as_sentence()
    if found := re.fullmatch(r"refused: checkpoint fault (\d+)", line):
        return inputs["checkpoint"], *CHECKPOINT[int(found[1])].as_sentence()
    if found := re.fullmatch(r"refused: book fault (\d+)", line):
        return inputs["log"] if found[1] == "2" else None, *BOOK[int(found[1])]
    if found := re.fullmatch(r"refused: job (\d+) book fault (\d+)", line):
        job = int(found[1])
        return files[job] if job < len(files) else None, *BOOK[int(found[2])].at("file", found[1])
    if found := re.fullmatch(r"failed: gather fault (\d+)", line):
        row = GATHER[int(found[1])]
        return None, f"the measurement fails: {row.wrong}", row.advice
    raise ValueError(f"not the line of a fault: {line}")


def refused_known(words, folder):
    """The name of the first file of known digests that is refused."""
    for name in read_words(words).values["--known"]:
        try:
            read_known((folder / name).read_bytes())
        except Fault:
            return name
    raise ValueError("each file of known digests is taken")


def names_of(words):
    """The inputs of these words, by what they are, and the files to measure."""
    if not words:
        return {"log": "standard input"}, []
    asked = read_words(words)
    kinds = INPUTS[asked.command]
    named = {"checkpoint": "--resume", "expected": "--expected", "quote": "--quote", "list": "--list", "key": "--key", "signature": "--signature"}
    named = {kind: asked.values.get(option) for kind, option in named.items()}
    inputs = {**named, **dict(zip(kinds, asked.names))}
    if asked.values.get("--before") is not None:
        inputs["log"] = None  # (the fault of either log names none)
    taken = TAKE_STANDARD_INPUT.get(asked.command, [])
    inputs = {kind: "standard input" if name == "-" and kind in taken else name for kind, name in inputs.items()}
    return inputs, asked.names[len(kinds):]


def takes_only_files(words):
    """Whether a signature is verified: then no input is read but regular files."""
    return bool(words) and read_words(words).values.get("--key") is not None


def unread(name, folder, takes_only_files):
    """That the file of this name cannot be read, and what the system says why, if it still says so; or that it is no regular file."""
    if takes_only_files and name and (folder / name).exists() and not (folder / name).is_file():
        return f"cannot read {name}: it is not a regular file: copy it to one"
    if name == "-":
        return "cannot read -: here it is the name of a file: give /dev/stdin for standard input"
    place = os.open(folder, os.O_RDONLY)
    try:
        file = os.open(name, os.O_RDONLY, dir_fd=place)
        try:
            os.read(file, 1)
        finally:
            os.close(file)
    except OSError as error:
        return f"cannot read {name}: {os.strerror(error.errno)}"
    except ValueError:  # a NUL in the name, which no call of the system can be given
        return f"cannot read {name}: file name contained an unexpected NUL byte"
    finally:
        os.close(place)
    return f"cannot read {name}"


def fault_line_of(words, text):
    """The line of the fault that these words' output is, as it is without `--json`; or None. (The lines of entries or events as
    JSON, or of events that are explained, may stand before it.)"""
    if text.startswith((b"refused: ", b"failed: ")):
        return text[:-1]
    last = text.splitlines()[-1] if words[:1] in (["show"], ["events"]) and text else text
    if "--partial" in words and last.startswith((b"refused: ", b"failed: ")):
        return last
    return json.loads(last)["fault"]["message"].encode() if last.startswith(b'{"fault":') else None


def is_heard(words):
    """Whether the words ask for no silence: none after the command and before `--` does."""
    after = words[1:words.index("--")] if "--" in words[1:] else words[1:]
    return not any(word == "--quiet" or word.startswith("-") and not word.startswith("--") and "q" in word for word in after)


def is_of_usage(said):
    """Whether this is a text of clap's, of printable bytes and line feeds alone."""
    return said.startswith(b"error: ") and said.endswith(b"\n") and all(0x20 <= each <= 0x7E or each == 0x0A for each in said)


def signing_due(words, line):
    """The line that says what to do about a refused signature, or a quote's key, or no bytes."""
    if found := re.fullmatch(rb"refused: signature fault (\d+)", line):
        return f"{SIGNATURE_HINTS[int(found[1])]}\n".encode()
    found = re.fullmatch(rb"refused: key fault (\d+)", line)
    if not found or words[0] == "key":
        return b""
    return f"{NO_AREA if int(found[1]) <= LAST_OF_AREAS else NO_ATTESTATION_KEY}\n".encode()


def mistake_due(words, line, folder, given):
    """The line that says what the refused input is in place of what it should be, or no bytes."""
    found = re.match(rb"refused: (log form|text list|log|list|replay|expected|key) fault ", line)
    if not found or not words or found[1] == b"key" and words[0] != "key":
        return b""
    kind = {"log form": "form", "text list": "text", "replay": "list"}.get(found[1].decode(), found[1].decode())
    name = names_of(words)[0][kind]
    if name in (None, "standard input") or not is_regular(name, folder, given):
        return b""
    data = given if name == "/dev/stdin" else (folder / name).read_bytes()
    mistake = mistake_in("printed" if words[0] == "expected" else kind, data)
    return shown(f"{name}: {mistake}") + b"\n" if mistake else b""


