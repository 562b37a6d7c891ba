#!/usr/bin/env python3
"""Compares what the library for C and `tests/reference/` answer on damaged inputs: each prefix of the sample's log, of its list, of the message
of its quote, of public areas of keys, and of messages, keys and signatures where a signature is verified, and each of these with the lowest bit of
one byte turned; 100,000 small boots that are changed at random; and 20,000 selections of registers, of which half are changed at random.

tests/faults/damaged.py [LIBRARY]: a libima_verify.so; without it `dist/library` makes one, which builds what is not up to date.

The text of each input is compared, and its verdict; of a damaged list also the lines of the entries before the fault. Most of a log is data
that no register depends on, so a log is judged with the first entry of the list alone. The boots (boots.py) are judged by a quote: half of the
messages are such as an honest TPM signs of the changed log and list. A selection is tried as that of expected registers and as one of required
registers. What it selects is also found without either: by a table of all parts, for each of the 96 registers. For each kind of input the script
prints how many have which answer. It counts inputs."""

import os
import random
import subprocess
import sys
from collections import Counter
from concurrent.futures import ProcessPoolExecutor
from pathlib import Path

sys.path[:0] = [str(Path(__file__).resolve().parents[1]), str(Path(__file__).resolve().parents[1] / "cases")]
import boots  # noqa: E402
import harness  # noqa: E402
from c_library import Call, Library, Unlike  # noqa: E402
from harness import ROOT  # noqa: E402
from reference.attestations import VALID, attest_report  # noqa: E402
from reference.faults import Fault  # noqa: E402
from reference.keys import read_key  # noqa: E402
from reference.log import read_log  # noqa: E402
from reference.measurement_list import IMA_REGISTER, read_list  # noqa: E402
from reference.registers import ALGORITHMS, REGISTERS, Registers, register_line  # noqa: E402
from reference.signatures import LACKS_CRYPTOGRAPHY, check_signed  # noqa: E402
from reference.texts import pcrread_text, read_expected, read_requirement, read_selection  # noqa: E402
from reference.verdict import verdict_report  # noqa: E402

BOOT = ROOT / "samples/real-boot"
LOG, LIST = ((BOOT / name).read_bytes() for name in ("firmware.log", "ima.list"))
FIRST_ENTRY = LIST[:101]
MESSAGE = (ROOT / "samples/quoted/quote.msg").read_bytes()
NONCE = bytes.fromhex((ROOT / "samples/quoted/nonce").read_text())
TENTH = next(line for line in (BOOT / "expected.txt").read_bytes().splitlines() if line.startswith(b"sha256 10 "))
ROOM, BY_KEY = 65536, "attest by key"
RSA_AREA, CURVE_AREA, ENDORSEMENT_AREA = ((ROOT / "samples/keys" / f"{name}.pub").read_bytes() for name in ("ak-rsassa", "ak-p256", "ek-rsa"))
SEEDS, BOOTS_OF_A_SEED, SELECTIONS_OF_A_SEED = 20, 5000, 1000
# Quotes and their signatures, by one key of each kind.
SIGNED = {name: {end: (ROOT / "samples/signed" / f"{name}.{end}").read_bytes() for end in ("pub", "pem", "msg", "tpmt", "sig")}
          for name in ("rsassa", "rsapss", "p256")}
AT_RESET = Registers(ALGORITHMS)
PRINTED = pcrread_text(AT_RESET).encode()
RANGES = {"all": range(REGISTERS)}
RANGES |= {f"{register}": range(register, register + 1) for register in range(REGISTERS)}
RANGES |= {f"{first}-{last}": range(first, last + 1) for first in range(REGISTERS) for last in range(first, REGISTERS)}
# Each part that a selection can have: which banks it names, and which registers.
PARTS = {f"{bank}{text}": (named, registers) for bank, named in [("", None), *((f"{it.name}:", it) for it in ALGORITHMS)]
         for text, registers in RANGES.items()}
CHARACTERS = ",,++::--0123456789alsh AL\n"


def answer_of(decide):
    """The status and the text that a call of the reference comes to."""
    try:
        text, is_well = decide()
    except Fault as fault:
        return fault.status, f"{fault.line}\n".encode()
    return 0 if is_well else 1, text if isinstance(text, bytes) else text.encode()


def judged(log, listed, expected):
    """The verdict where some PCR has to be compared."""
    log, expected = read_log(log), read_expected(expected)
    told = verdict_report(log, read_list(listed), expected)
    told = told._replace(matches=told.matches and bool(expected))
    return told.text(), told.matches


def attested(log, listed, message, nonce, require):
    report = attest_report(log, listed, message, nonce, require.decode())
    return report.text(), report.matches


def attested_by_key(log, listed, message, key, signature, nonce, require):
    check_signed(key, message, signature)
    report = attest_report(log, listed, message, nonce, require.decode(), signature=VALID)
    return report.text(), report.matches


def registers(log):
    return read_log(log).registers().text(), True


def shown(listed):
    return b"".join(entry.line() for entry in read_list(listed)), True


def key(area):
    return read_key(area).text(), True


def endorsement_key(area):
    return read_key(area, is_endorsement=True).text(), True


# For each kind of input: the library's function, what else it is given, and the same of the reference.
KINDS = {
    "registers after the log": (LOG, "registers", lambda log: [log], registers),
    "verdict on the log and the first entry": (LOG, "verdict", lambda log: [log, FIRST_ENTRY, b""], judged),
    "entries of the list": (LIST, "entries", lambda listed: [listed], shown),
    "verdict on the log and the list": (LIST, "verdict", lambda listed: [LOG, listed, TENTH], judged),
    "verdict by a quote": (MESSAGE, "attest", lambda message: [LOG, LIST, message, NONCE, b"sha256:0-10"], attested),
    "key of RSA": (RSA_AREA, "key", lambda area: [area], key),
    "key of a curve": (CURVE_AREA, "key", lambda area: [area], key),
    "endorsement key": (ENDORSEMENT_AREA, "endorsement key", lambda area: [area], endorsement_key),
}


def signed_kinds():
    """The same of a message, a key and a signature in each form, where the others stay."""
    for name, parts in SIGNED.items():
        for key, signature in (("pub", "tpmt"), ("pem", "sig")):
            for damaged in (*["msg"] * (key == "pub"), key, signature):
                def inputs(data, parts=parts, ends=("msg", key, signature), damaged=damaged):
                    return [LOG, LIST, *(data if end == damaged else parts[end] for end in ends), NONCE, b"sha256:0-10"]

                yield f"{name}.{damaged} with {name}.{key} and {name}.{signature}", (parts[damaged], BY_KEY, inputs, attested_by_key)


def is_signed(kind):
    return KINDS[kind][1] == BY_KEY


KINDS |= dict(signed_kinds())
# What a function takes beside the inputs: a requirement, and its form.
ANY_REQUIRED, AS_TEXT, OF_LOG, AS_IT_STANDS = b"none", False, False, False
NO_KNOWN, KNOWN_IS_NOT_GIVEN = b"", False
NO_STATE, NO_KEY, NO_SIGNATURE, NO_DIGITS, SHA1_IS_NOT_TAKEN, IS_SIGNED, OF_WHOLE = b"", b"", b"", b"", False, True, False
ENTRIES = Call("entries", [], None, AS_TEXT, False)
DAMAGES = {
    "prefixes": (lambda data: range(len(data) + 1), lambda data, place: data[:place]),
    "one bit turned": (lambda data: range(len(data)), lambda data, place: data[:place] + bytes([data[place] ^ 1]) + data[place + 1 :]),
}


def library_answer(library, function, inputs):
    """The status and the text that the library answers."""
    try:
        if function == "entries":
            return entries_answer(library, *inputs)
        if function == "attest":
            log, listed, message, nonce, require = inputs
            inputs = [log, NO_STATE, listed, message, NO_KEY, NO_SIGNATURE, nonce, NO_DIGITS, require, NO_KNOWN]
            return library.ask_by_quote(inputs, KNOWN_IS_NOT_GIVEN, SHA1_IS_NOT_TAKEN, IS_SIGNED, OF_WHOLE, AS_TEXT)[:2]
        if function == BY_KEY:
            log, listed, message, key, signature, nonce, require = inputs
            inputs = [log, NO_STATE, listed, message, key, signature, nonce, NO_DIGITS, require, NO_KNOWN]
            return library.ask_by_quote(inputs, KNOWN_IS_NOT_GIVEN, SHA1_IS_NOT_TAKEN, not IS_SIGNED, OF_WHOLE, AS_TEXT)[:2]
        if function in ("key", "endorsement key"):
            return library.ask_for_key(*inputs, function != "key", AS_TEXT)
        if function == "registers":
            return library.ask(function, inputs, [OF_LOG, AS_IT_STANDS, AS_TEXT], ROOM)[:2]
        return library.ask(function, [*inputs, ANY_REQUIRED, NO_KNOWN], [KNOWN_IS_NOT_GIVEN, AS_TEXT], ROOM)[:2]
    except Unlike as cause:
        return None, f"not answered: {cause}".encode()


def entries_answer(library, listed):
    """All entries, or the line of a fault. Those before that must be the entries of the bytes before it."""
    status, lines, fault, offset = library.pieces(ENTRIES, listed, ROOM)
    if fault and lines != shown(listed[:offset])[0]:
        raise Unlike(f"other lines before byte {offset}")
    return status, fault or lines


def kind_of_answer(answer):
    """An answer without its numbers of events and entries."""
    status, text = answer
    return "well" if status == 0 else "differs" if status == 1 else text.decode().strip().partition(" at ")[0]


def compared(file, kind, damage):
    """How many inputs of a kind had which answer, and those of which the two answers differ."""
    library = Library(file)
    data, function, inputs_with, decide = KINDS[kind]
    places_in, damaged = DAMAGES[damage]
    counts, wrong = Counter(), []
    for place in places_in(data):
        inputs = inputs_with(damaged(data, place))
        if b"" in inputs and function == BY_KEY:
            continue  # (a key or a signature of no bytes is none for the library)
        wanted, found = answer_of(lambda: decide(*inputs)), library_answer(library, function, inputs)
        counts[kind_of_answer(wanted)] += 1
        if wanted != found:
            wrong.append(f"byte {place}: status {found[0]}, {found[1][-200:]!r}, not {wanted[0]}, {wanted[1][-200:]!r}")
    return counts, wrong


def compared_boots(file, seed):
    """The same of boots that are changed at random, from this seed on."""
    library, chance, counts, wrong = Library(file), random.Random(seed), Counter(), []
    for place in range(BOOTS_OF_A_SEED):
        inputs = [*boots.random_boot(chance), boots.NONCE, boots.REQUIRE.encode()]
        wanted, found = answer_of(lambda: attested(*inputs)), library_answer(library, "attest", inputs)
        counts[kind_of_answer(wanted)] += 1
        if wanted != found:
            wrong.append(f"seed {seed}, boot {place}: status {found[0]}, {found[1][-200:]!r}, not {wanted[0]}, {wanted[1][-200:]!r}")
    return counts, wrong


def random_selection(chance):
    """The text of a selection, or with one or two characters that are other ones, are missing or are more."""
    parts = chance.choices([*PARTS], k=chance.choice((1, 1, 2, 3, 6)))
    text = parts[0] + "".join(chance.choice(",+") + part for part in parts[1:])
    for _ in range(chance.choice((0, 0, 1, 2))):
        place = chance.randrange(len(text) + 1)
        text = text[:place] + chance.choice(("", *CHARACTERS)) + text[place + chance.choice((0, 1)) :]
    return text


def selected_by(text):
    """Which registers a selection has, in the order of all, and whether its first part names a bank. They are none if one of its parts is none."""
    parts, banks = text.replace("+", ",").split(","), [None]
    if not all(part in PARTS for part in parts):
        return [], False
    for part in parts:
        banks.append(PARTS[part][0] or banks[-1])
    ranges = [(bank, PARTS[part][1]) for bank, part in zip(banks[1:], parts)]
    selected = [row for row in AT_RESET.rows() if any(bank in (None, row[0]) and row[1] in registers for bank, registers in ranges)]
    return selected, banks[1] is not None


def selection_answers(selected, is_bound):
    """What `expected` and `replay` of nothing answer where a text selects these registers, if any, and its first part names a bank or not."""
    refused = 2, b"refused: command line\n"
    missing = "".join(f"{algorithm.name} {register} missing\n" for algorithm, register, _ in selected)
    is_required = is_bound and any(register == IMA_REGISTER for _, register, _ in selected)
    report = f"entries 0\ncompared 0\n{missing}verdict differ\n"
    return (0, "".join(register_line(*row) for row in selected).encode()) if selected else refused, (1, report.encode()) if is_required else refused


def selection_fault(library, text, selected, wanted):
    """What is wrong with the answers to a selection, or None."""
    pairs = {row[:2] for row in selected}
    if (read_selection(text) or set(), read_requirement(text) or set()) != (pairs, pairs if wanted[1][0] == 1 else set()):
        return f"{text!r}: the reference selects {read_selection(text)}, and requires {read_requirement(text)}"
    if not text:
        return None  # (which has another meaning in the library)
    found = (library.ask_with_room("expected", [PRINTED, text.encode()], [AS_TEXT])[:2],
             library.ask_with_room("replay", [b"", b"", text.encode(), NO_KNOWN], [KNOWN_IS_NOT_GIVEN, AS_TEXT])[:2])
    return None if found == wanted else f"{text!r}: {found}, not {wanted}"


def compared_selections(file, seed):
    """How many selections, which are made from this seed on, have which answers, and what is wrong with some."""
    library, chance, counts, wrong = Library(file), random.Random(seed), Counter(), []
    for _ in range(SELECTIONS_OF_A_SEED):
        text = random_selection(chance)
        selected, is_bound = selected_by(text)
        wanted = selection_answers(selected, is_bound)
        counts["refused" if wanted[0][0] == 2 else "not to be required" if wanted[1][0] == 2 else "well"] += 1
        try:
            wrong += filter(None, [selection_fault(library, text, selected, wanted)])
        except Unlike as cause:
            wrong.append(f"{text!r}: {cause}")
    return counts, wrong


def totals(runs):
    """The counts and the faults of several runs together."""
    results = [run.result() for run in runs]
    return sum((counts for counts, _ in results), Counter()), [fault for _, wrong in results for fault in wrong]


class Damaged(harness.TestCase):
    def test_answers(self):
        file, groups = self.library(), [(kind, damage) for kind in KINDS for damage in DAMAGES if not (LACKS_CRYPTOGRAPHY and is_signed(kind))]
        with ProcessPoolExecutor(os.cpu_count()) as pool:
            runs = [pool.submit(compared, str(file), *group) for group in groups]
            changed = [pool.submit(compared_boots, str(file), seed) for seed in range(SEEDS)]
            selections = [pool.submit(compared_selections, str(file), seed) for seed in range(SEEDS)]
            for (kind, damage), run in zip(groups, runs):
                self.check_answers(f"{kind}, {damage}", *run.result())
            self.check_answers("boots that are changed at random, by a quote", *totals(changed))
            self.check_answers("selections", *totals(selections))
        if LACKS_CRYPTOGRAPHY:
            with self.subTest(title="signatures"):
                self.lacks("cryptography for Python")

    def check_answers(self, title, counts, wrong):
        answers = ", ".join(f"{answer} {times}" for answer, times in sorted(counts.items()))
        self.check_all(f"{title}: {answers}", sum(counts.values()) - len(wrong), wrong)

    def library(self):
        """The library that is asked, which is made if the script has no argument."""
        folder = self.folder()
        if len(sys.argv) == 1:
            subprocess.run([ROOT / "dist/library", folder], check=True)
        return harness.argument(folder / "libima_verify.so")


if __name__ == "__main__":
    sys.exit(harness.main())
