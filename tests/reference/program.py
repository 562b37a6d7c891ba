"""What the program answers (docs/cli.md)."""

import os
import re
import shutil
import stat
import subprocess
from pathlib import Path
from typing import Callable, NamedTuple

from . import list_texts, log_forms
from .attestations import CHECKED, NOT_CHECKED, VALID, asked_quote, quoted_report, read_state, sound_requirement, stated_rows
from .boot_answers import Boot, claim_lines
from .checkpoint import before_a_list, read_checkpoint
from .command_line import HelpAsked, VersionAsked, read_words
from .faults import (
    MEMORY,
    USAGE,
    BookFault,
    CheckpointFault,
    ExpectedFault,
    Fault,
    ListFault,
    not_read,
    not_utf8,
    not_written,
    too_long,
)
from .json_texts import json_lines
from .keys import read_key
from .known_files import read_known, unknown_entries
from .log import read_log, read_log_prefix
from .measured_data import matching_registers
from .measurement_list import (
    BOOT_AGGREGATE,
    IMA,
    IMA_REGISTER,
    LONGEST_IMA_PATH,
    entry_of,
    entry_values,
    list_spelling,
    list_text,
    read_prefix,
    replay,
)
from .registers import ALGORITHMS, BY_NAME, SHA1, Registers, registers_value
from .signatures import Lacking, check_signed
from .texts import read_expected, read_hexadecimal, read_names, read_printed, read_requirement, read_selection
from .verdict import Rule, list_report, places, prefix_report, prefix_that_matches, report_at, rule_beside

MOST_BYTES = 64 << 20
LONGEST_PATH = 4095
# What standard input is called, by a fault and by the arguments of some commands.
STANDARD_INPUT = "-"
# How many names there are for the file beside one that is saved, and the mode of one that its user alone reads and writes.
MOST_BESIDE = 100
PRIVATE = 0o600
# How a list is judged that is taken as a whole, where no files have to be known.
OF_A_WHOLE_LIST = {"--prefix": False, "--resume": None, "--known": []}
# The exit status where nobody says that the signature of a quote was checked, whatever else holds.
NOT_ATTESTED = 4


class Unanswered(Exception):
    """What the reference leaves to the program: help, workers whose order may show, and without a kit the version."""


class LacksCryptography(Unanswered):
    """What the reference leaves to the program on a machine without cryptography for Python: signatures."""


class Inputs:
    """Files by name, below a folder, which can also be written, and standard input, of which so many bytes are taken. It may be that only regular files
    are taken, as one of which standard input then counts."""

    def __init__(self, folder, standard_input, most_bytes):
        self.folder = os.open(folder, os.O_RDONLY | os.O_DIRECTORY)
        self.standard_input, self.most_bytes = standard_input, most_bytes
        self.takes_only_regular_files = False

    def close(self):
        os.close(self.folder)

    def opened(self, name):
        """A call that reads the input, or the fault of one that cannot be opened."""
        if name == "/dev/stdin":
            return lambda: self.limited(name, self.standard_input)
        try:
            if self.takes_only_regular_files and not stat.S_ISREG(os.stat(name, dir_fd=self.folder).st_mode):
                raise OSError(f"{name} is no regular file")
            file = open(name, "rb", opener=lambda path, flags: os.open(path, flags, dir_fd=self.folder))
        except IsADirectoryError:
            # (the system opens it, and then does not read it)
            return lambda: (b"", not_read(name))
        except (OSError, ValueError):
            raise not_read(name) from None
        return lambda: self.read(name, file)

    def load(self, name):
        """The bytes of an input that is loaded whole."""
        return whole(*self.opened(name)())

    def load_standard_input(self):
        return whole(*self.limited(STANDARD_INPUT, self.standard_input))

    def load_argument(self, name):
        """The bytes of the input that an argument names, where `-` is standard input."""
        return self.load_standard_input() if name == STANDARD_INPUT else self.load(name)

    def read(self, name, file):
        """The bytes that are taken of a file, and the fault that ends them, or None."""
        with file:
            try:
                return self.limited(name, file.read(self.most_bytes + 1))
            except OSError:
                return b"", not_read(name)

    def save(self, name, data):
        """Makes a file of these bytes, or leaves what has the name as it is ('Saving'). It is not synced, which nothing here
        can tell."""
        try:
            beside, file = self.created_beside(name, self.mode_in_place_of(name))
            try:
                with file:
                    file.write(data)
                os.rename(beside, name, src_dir_fd=self.folder, dst_dir_fd=self.folder)
            except OSError:
                os.unlink(beside, dir_fd=self.folder)
                raise
        except (OSError, ValueError):
            raise not_written(name) from None

    def mode_in_place_of(self, name):
        """The mode of the file that takes the place of what has the name."""
        try:
            present = os.stat(name, dir_fd=self.folder, follow_symlinks=False).st_mode
        except FileNotFoundError:
            return PRIVATE
        if not stat.S_ISREG(present):
            raise OSError(f"{name} is no regular file")
        return PRIVATE & present

    def created_beside(self, name, mode):
        """A new file beside that of the name, with its own name, the first that nothing has."""
        for beside in (f"{name}.{number}.new" for number in range(MOST_BESIDE)):
            try:
                return beside, open(beside, "xb", opener=lambda path, flags: os.open(path, flags, mode, dir_fd=self.folder))
            except FileExistsError:
                continue
        raise FileExistsError(name)

    def limited(self, name, data):
        return data[: self.most_bytes], too_long(name) if len(data) > self.most_bytes else None


def whole(data, fault):
    if fault:
        raise fault
    return data


def list_of(data, fault):
    """The entries of a list that is read as its bytes come."""
    return whole(*prefix_of(data, fault))


def prefix_of(data, fault, first=0):
    """The entries before the first fault of such a list, and that, or None, where the first entry has this number; or the fault that ended
    its bytes, if that is the first. Only a cut entry is told after it."""
    entries, found = read_prefix(data, first)
    if fault and (found is None or found.number == ListFault.TRUNCATED):
        raise fault
    return entries, found


class Told(NamedTuple):
    """What a command shows: its text, which may be bytes, and its values as JSON, each made when it is asked for; and its status."""

    text: Callable
    values: Callable
    status: int = 0


def told_of(told, is_well=True):
    """The same of what has one value."""
    return Told(told.text, lambda: [told.as_json()], 0 if is_well else 1)


def verdict_of(report, values, status):
    """The same of a report, as these options have it shown."""
    told = told_of(report)._replace(status=status)
    if values["--summary"]:
        return told._replace(text=report.summary)
    return told._replace(text=lambda: report.text(values["--terminal"]))


def registers_of_hexadecimal(inputs):
    return told_of(read_log(read_hexadecimal(inputs.load_standard_input())).registers())


def replayed(values, log):
    """The bytes that are replayed of a log."""
    return log_forms.told_log(log) if values["--hcrtm"] else log


def registers_command(inputs, values, log):
    return told_of(read_log(replayed(values, inputs.load(log))).registers())


def confirming_registers(inputs, values, log):
    """The registers that match after a log of these bytes, or None where nothing tells which do; and the status once all is told."""
    if values["--quote"] is not None:
        report = report_by_quote(inputs, {**values, **OF_A_WHOLE_LIST}, lambda: log, values["--list"], values["--quote"])
        # (what else is quoted root chooses: it may be a bank that the firmware does not extend)
        required = read_requirement(values["--require"])
        confirmed = {(algorithm, register) for algorithm, register in report.quote.selected if register != IMA_REGISTER} & required
        return confirmed if report.matches else set(), attest_status(report)
    if values["--expected"] is None:
        return None, 0
    expected = read_expected(inputs.load_argument(values["--expected"]))
    return matching_registers(read_log(log).registers(), expected), 0


def events_command(inputs, values, log):
    data = replayed(values, inputs.load_argument(log))
    matching, status = confirming_registers(inputs, values, data)
    log, fault = read_log_prefix(data)
    if fault and not values["--json"]:
        raise fault
    shown = log.values(matching) if log and values["--json"] else []
    ended = [fault.as_json()] if fault else []
    text = (lambda: log.explained(matching)) if values["--explain"] else (lambda: log.text(values["--data"]))
    return Told(text, lambda: shown + ended, fault.status if fault else status)


def boot_command(inputs, values, log):
    data = replayed(values, inputs.load_argument(log))
    matching, status = confirming_registers(inputs, values, data)
    boot = Boot(read_log(data), matching or set())
    lines = [*boot.lines()] if matching is not None else claim_lines(boot.log)
    if values["--before"] is not None:
        lines += boot.differences(read_log(replayed(values, inputs.load(values["--before"]))))
    return Told(lambda: "".join(f"{line.text}\n" for line in lines), lambda: [line.value for line in lines], status)


def show_command(inputs, values, listed):
    data, fault = inputs.opened(listed)()
    is_sent_as_read = values["--json"] or values["--partial"]
    if not is_sent_as_read:
        whole(data, fault)
    entries, found = read_prefix(data)
    if found and not (fault and found.number == ListFault.TRUNCATED):
        fault = found
    if fault and not is_sent_as_read:
        raise fault
    ended = fault.as_json() if fault else {"entries": len(entries)}
    return Told(lambda: list_text(entries) + (f"{fault.line}\n".encode("utf-8", "surrogateescape") if fault else b""), lambda: [*entry_values(entries), ended], fault.status if fault else 0)


def replay_command(inputs, values, listed, expected=None):
    if expected is None:
        registers = Registers(ALGORITHMS)
        replay(registers, list_of(*inputs.opened(listed)()))
        return told_of(registers)
    required = required_by(values)
    expected = read_expected(inputs.load(expected))
    known = known_by(inputs, values)
    entries = list_of(*inputs.opened(listed)())
    report = list_report(entries, expected, required).looked_at(unknown_entries(known, entries, 0))
    return verdict_of(report, values, 0 if report.matches else 1)


def required_by(values):
    """What `--require` names, or None without it."""
    text = values["--require"]
    if text is None:
        return None
    required = read_requirement(text)
    if required is None:
        raise USAGE
    return required


def known_by(inputs, values):
    """The digests of the known files, or None where none are given."""
    texts = (read_known(inputs.load(name)) for name in values["--known"])
    return set().union(*texts) if values["--known"] else None


def expected_command(inputs, values, text):
    selected = read_selection(values["--registers"])
    if selected is None:
        raise USAGE
    rows = [row for row in read_printed(inputs.load_argument(text)) if (row.algorithm, row.register) in selected]
    if not rows:
        raise ExpectedFault.NO_REGISTER.of_text()
    return Told(lambda: "".join(row.line() for row in rows), lambda: [registers_value(rows)])


def key_command(inputs, values, area):
    key, part = read_key(inputs.load_argument(area), values["--endorsement"]), values["--print"]
    return Told(lambda: key.text(part), lambda: [key.as_json(part)])


def read_boot(inputs, values, log, listed, read_state=read_checkpoint):
    """What a log of these bytes states, the digests of known files, the checkpoint from which its list goes on, the entries that follow, and the
    fault that ends these, or None."""
    start = read_state(inputs.load(values["--resume"])) if values["--resume"] is not None else None
    known = known_by(inputs, values)
    read = inputs.opened(listed)
    log = read_log(log)
    before = log.registers()
    start = start or before_a_list(before)
    if start.before.banks != before.banks:
        raise CheckpointFault.OTHER_BOOT.fault()
    return log, known, start, *prefix_of(*read(), start.entries)


def unknown_up_to(end, known, start, entries):
    """The entries that are not known up to a checkpoint, of those that follow another one."""
    return unknown_entries(known, entries[: end.entries - start.entries], start.entries)


def judged_prefix(log, start, entries, fault, prefix, expected, required=None, rule=Rule()):
    """The checkpoint that is reported on, and the report: on a prefix of the list, or where that is None on the whole."""
    if prefix:
        return prefix, prefix_report(log, prefix, start, entries, fault, expected, required, rule)
    end = start.following(whole(entries, fault))
    return end, report_at(log, end, expected, required, rule=rule)


def save_if_it_matches(inputs, values, report, text):
    """Saves the text of a checkpoint, if that is asked for, where the verdict of a report is `match`."""
    if values["--save"] is not None and report.matches:
        inputs.save(values["--save"], text)


def verify_command(inputs, values, log, listed, expected):
    required = required_by(values)
    log = replayed(values, inputs.load(log))
    expected = read_expected(inputs.load(expected))
    log, known, start, entries, fault = read_boot(inputs, values, log, listed)
    rule = rule_beside(required, values["--old-kernel"])
    prefix = prefix_that_matches(log, start, entries, expected, required, rule) if values["--prefix"] else None
    end, report = judged_prefix(log, start, entries, fault, prefix, expected, required, rule)
    report = report.looked_at(unknown_up_to(end, known, start, entries))
    if is_growing(values):
        report = report._replace(matches=report.matches and bool(expected))
        if not end.leaves_room:
            raise MEMORY
    save_if_it_matches(inputs, values, report, end._replace(boot=None).text())
    return verdict_of(report, values, 0 if report.matches else 1)


def signature_of(inputs, values, message):
    """What is known of the signature of a message; or why it is refused."""
    if values["--key"] is None:
        return CHECKED if values["--signature-checked"] else NOT_CHECKED
    check_signed(inputs.load(values["--key"]), message, inputs.load(values["--signature"]))
    return VALID


def report_by_quote(inputs, values, load_log, listed, message, expected=None):
    """The report on a log, whose bytes a call gives, and on a list by the message of a quote."""
    nonce = bytes.fromhex(values["--nonce"])
    required = sound_requirement(values["--require"], nonce, values["--sha1"])
    message = inputs.load(message)
    signature = signature_of(inputs, values, message)
    quote = asked_quote(message, nonce, required)
    log = load_log()
    rows = stated_rows(quote, None if expected is None else inputs.load(expected))
    boot, known, start, entries, fault = read_boot(inputs, values, log, listed, lambda text: read_state(text, quote))
    report = quoted_report(boot, start, entries, fault, quote, signature, values["--prefix"], rows, values["--old-kernel"])
    report = report.looked_at(unknown_up_to(report.end, known, start, entries))
    if not report.end.leaves_room:
        raise MEMORY
    return report


def attest_status(report):
    return NOT_ATTESTED if not report.is_signed else 0 if report.matches else 1


def attest_command(inputs, values, log, listed, message, expected=None):
    report = report_by_quote(inputs, values, lambda: replayed(values, inputs.load(log)), listed, message, expected)
    save_if_it_matches(inputs, values, report, report.next)
    return verdict_of(report, values, attest_status(report))


def is_growing(values):
    """Whether the list is one that grows ('Checkpoints')."""
    return values["--prefix"] or values["--resume"] is not None or values["--save"] is not None


def locate_command(inputs, values, log, listed, expected):
    required = required_by(values)
    log = replayed(values, inputs.load(log))
    expected = read_expected(inputs.load(expected))
    read = inputs.opened(listed)
    log = read_log(log)
    told = places(log, list_of(*read()), expected, required)
    return told_of(told, told.are_located)


def measure_command(inputs, values, log, *names):
    log = read_log(replayed(values, inputs.load(log)))
    names = [*names, *further_names(inputs, values)]
    algorithm, template = BY_NAME[values["--alg"]], values["--template"].encode()
    files = [(name, algorithm.hash(inputs.load(name))) for name in names]
    entries = measured(log, algorithm, template, values["--limit"], files, values["--workers"])
    if values["--print"] == "ascii":
        return Told(lambda: list_text(entries), lambda: entry_values(entries))
    if values["--print"] == "binary":
        return Told(lambda: list_spelling(entries), list)
    registers = log.registers()
    replay(registers, entries)
    return told_of(registers)


def further_names(inputs, values):
    name = values["--files-from"]
    if name is None:
        return []
    try:
        return read_names(inputs.load(name), values["--null"])
    except UnicodeDecodeError:
        raise not_utf8(name) from None


def measured(log, algorithm, template, limit, files, workers):
    """The entries of the boot aggregate and of files, each a name and a digest, and each entry once ('A file tree')."""
    registers = log.registers()
    if template == IMA and algorithm is not SHA1:
        raise BookFault.WRONG_HASH.at_opening()
    if algorithm not in registers.banks:
        raise BookFault.NO_BANK.at_opening()
    if workers > 1 and len(files) > 1 and (len(set(files)) > 1 or len(files) >= limit):
        raise Unanswered("the order of several workers may show")
    entries = {entry_of(template, algorithm, registers.boot_aggregate(algorithm), BOOT_AGGREGATE): None}
    for job, (name, digest) in enumerate(files):
        path = name.encode()
        if len(path) > (LONGEST_IMA_PATH if template == IMA else LONGEST_PATH):
            raise BookFault.PATH_TOO_LONG.of_file(job)
        if job + 1 >= limit:
            raise BookFault.FULL.of_file(job)
        entries[entry_of(template, algorithm, digest, path)] = None
    return list(entries)


def list_command(inputs, values, text):
    data = list_texts.list_of(inputs.load_argument(text))
    return Told(lambda: data, list)


def log_command(inputs, values, log):
    data, _ = log_forms.log_of(inputs.load_argument(log))
    return Told(lambda: data, list)


COMMANDS = {
    "measure": measure_command,
    "verify": verify_command,
    "attest": attest_command,
    "locate": locate_command,
    "expected": expected_command,
    "key": key_command,
    "registers": registers_command,
    "events": events_command,
    "boot": boot_command,
    "show": show_command,
    "replay": replay_command,
    "list": list_command,
    "log": log_command,
}


def answer(words, folder=".", standard_input=b"", most_bytes=MOST_BYTES):
    """The program's status and output for arguments, where names are those of files below the folder; or `Unanswered`. With another
    `most_bytes`, what they would be if inputs had that limit."""
    inputs = Inputs(folder, standard_input, most_bytes)
    as_json = False
    try:
        if any("\udc80" <= letter <= "\udcff" for letter in "".join(words)):
            raise MEMORY
        if words:
            asked = read_words(words)
            as_json = asked.values.get("--json", False)
            inputs.takes_only_regular_files = asked.values.get("--key") is not None
            told = COMMANDS[asked.command](inputs, asked.values, *asked.names)
        else:
            told = registers_of_hexadecimal(inputs)
        text, status = json_lines(told.values()) if as_json else told.text(), told.status
    except Fault as fault:
        text, status = json_lines([fault.as_json()]) if as_json else f"{fault.line}\n", fault.status
    except HelpAsked:
        raise Unanswered("help") from None
    except Lacking:
        raise LacksCryptography("this machine has no cryptography for Python") from None
    except VersionAsked:
        text, status = version_lines(), 0
    finally:
        inputs.close()
    return status, text if isinstance(text, bytes) else text.encode()


def version_lines():
    """The version of the file VERSION, and the logic that the kit names."""
    version = (Path(__file__).resolve().parents[2] / "VERSION").read_text().strip()
    try:
        kit = subprocess.run([shutil.which("rt") or "/opt/rattle/bin/rt", "version"], stdout=subprocess.PIPE, check=True).stdout.decode()
    except (OSError, subprocess.CalledProcessError) as cause:
        raise Unanswered(f"the logic of the kit: {cause}") from None
    logic = re.search(r"\blogic [0-9a-f]{16}\b", kit)
    if logic is None:
        raise Unanswered("the logic: the kit names none")
    return f"ima-agent {version}\n{logic[0]}\n"
