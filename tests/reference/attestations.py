"""The judgement on a log and a list by a quote of the TPM. Who signed the quote is not looked at here: what is known of that is given, as a word."""

from typing import NamedTuple

from .checkpoint import Checkpoint, before_a_list, read_checkpoint
from .faults import USAGE, CheckpointFault, quote_fault
from .log import read_log
from .measurement_list import IMA_REGISTER, read_list, read_prefix
from .quotes import Quote, QuoteFault, read_quote
from .registers import ALGORITHMS, REGISTERS, SHA1
from .texts import read_expected, read_requirement
from .verdict import (
    GOOD,
    NO_ENTRIES,
    STRAYS,
    UNBOUND,
    UNKNOWN,
    Report,
    Rule,
    boot_aggregate_state,
    confirmed_prefix,
    prefix_report,
    report_at,
    strays_in,
    summary_line,
)

LEAST_NONCE = 16
# What is known of a quote's signature, in the words of a report: nothing, that the caller verified it, or that it was verified here.
NOT_CHECKED, CHECKED, VALID = "not checked", "checked", "valid"


class NotAttested(Exception):
    """Why a policy or a quote is refused, or what is against log and list: its name, and its numbers."""

    def __str__(self):
        return " ".join(map(str, self.args))


class Attestation(NamedTuple):
    """What is known of a log and a list that a quote confirms."""

    events: int
    locality: int
    entries: int
    quote: Quote


def require_sound(nonce, required, takes_sha1):
    """Refuses a policy with which a match would say too little. `required` is a set of pairs of an algorithm and a register."""
    if len(nonce) < LEAST_NONCE:
        raise NotAttested("ShortNonce")
    named = {register for _, register in required}
    for register in range(IMA_REGISTER + 1):
        if register not in named:
            raise NotAttested("NotRequired", register)
    weak = named - {register for algorithm, register in required if algorithm is not SHA1}
    if weak and not takes_sha1:
        raise NotAttested("OnlySha1", min(weak))


def require_asked_for(quote, nonce, required):
    """Refuses a quote with another nonce, or that does not select a required register."""
    if quote.nonce != nonce:
        raise NotAttested("OtherNonce")
    for algorithm in ALGORITHMS:
        for register in range(REGISTERS):
            if (algorithm, register) in required and not quote.covers([(algorithm, register)]):
                raise NotAttested("NotSelected", algorithm.name, register)


def require_apart(log, end):
    """Refuses a log that extends the list's register, and a list that extends another: each register's value is by one of the two alone."""
    for word, number, register in strays_in(log.events, end.stray):
        raise NotAttested("LogExtends", number) if word == "event" else NotAttested("ListExtends", number, register)


def attest(log, measurements, message, nonce, required, takes_sha1=False, rule=Rule()):
    """What is known of the bytes of a log, a list and a quote; or the first fault of these, or what is against it."""
    require_sound(nonce, required, takes_sha1)
    quote = read_quote(message)
    require_asked_for(quote, nonce, required)
    boot, entries = read_log(log), read_list(measurements)
    end = before_a_list(boot.registers()).following(entries)
    require_apart(boot, end)
    if boot_aggregate_state(end, rule) not in GOOD:
        raise NotAttested("BadAggregate")
    if not quote.is_of(end.after.value):
        raise NotAttested("Differs")
    return Attestation(len(boot.events), boot.locality, len(entries), quote)


def confirmed_by(quote, expected):
    """The rows of expected registers that a quote confirms, those that it selects; None if it does not: one of these is not expected, or the
    hash of their values is another."""
    values = {(row.algorithm, row.register): row.value for row in expected}
    if not quote.is_of(lambda *register: values.get(register)):
        return None
    return [row for row in expected if quote.covers([(row.algorithm, row.register)])]


class AttestReport(NamedTuple):
    """What a quote states; the report on log and list, with rows of expected registers that the quote confirms; None if there were no expected
    registers, else whether it confirms them; how the quote compares; what is known of its signature; and the checkpoint of what the report
    is on."""

    quote: Quote
    report: Report
    is_confirmed: bool | None
    is_quoted: bool
    signature: str
    end: Checkpoint

    @property
    def is_signed(self):
        return self.signature != NOT_CHECKED

    @property
    def expected(self):
        """What came of the values of expected registers, by its word: none or one."""
        return [] if self.is_confirmed is None else ["confirmed" if self.is_confirmed else "unconfirmed"]

    @property
    def matches(self):
        return self.report.matches and self.is_signed

    @property
    def next(self):
        """The text of the checkpoint to go on from, of the quote's boot: no bytes unless the verdict is `match`."""
        return self.end._replace(boot=boot_of(self.quote)).text() if self.matches else b""

    def banks(self):
        """The registers that are selected, by bank, in the quote's order."""
        banks = {}
        for algorithm, register in self.quote.selected:
            banks.setdefault(algorithm.name, []).append(register)
        return banks

    def looked_at(self, unknown):
        """The report where these entries are not known, or None without known files."""
        return self._replace(report=self.report.looked_at(unknown))

    def text(self, for_terminal=False):
        quote, word = self.quote, "match" if self.is_quoted else "differ"
        *lines, verdict = self.report.text(for_terminal).splitlines()
        after = next(number for number, line in enumerate(lines, 1) if line.startswith("boot_aggregate "))
        lines[after:after] = [f"expected {word}" for word in self.expected]
        stated = [f"quoted {bank} {' '.join(map(str, registers))}" for bank, registers in self.banks().items()]
        stated += [f"signer {quote.signer.hex()}"]
        stated += [f"clock {quote.clock} resets {quote.resets} restarts {quote.restarts} {'safe' if quote.is_safe else 'unsafe'}"]
        stated += [f"firmware {quote.firmware}"]
        concluded = [f"quote {word}", *(["signature valid"] if self.signature == VALID else []), verdict if self.is_signed else "signature not checked"]
        return "".join(f"{line}\n" for line in [*stated, *lines, *concluded])

    def summary(self):
        """The report in one line."""
        report, selected = self.report, len(set(self.quote.selected))
        entries = report.counts["entries"]
        reasons = [
            (not self.is_signed, "nobody checked the signature"),
            (not self.is_quoted, "the quote has other PCR values"),
            (report.counts["boot_aggregate"] not in GOOD, UNBOUND if entries else NO_ENTRIES),
            (report.strays, STRAYS),
            (report.unknown and report.unknown.numbers, UNKNOWN),
        ]
        against = [] if self.matches else [words for holds, words in reasons if holds][:1]
        return summary_line(report.word if self.is_signed else "no verdict", against, selected if self.is_quoted else 0, selected, report)

    def as_json(self):
        """The report as JSON."""
        quote, report = self.quote, self.report.as_json()
        clock = {"milliseconds": quote.clock, "resets": quote.resets, "restarts": quote.restarts, "safe": quote.is_safe}
        stated = {"quoted": [{"bank": bank, "registers": registers} for bank, registers in self.banks().items()],
                  "signer": quote.signer.hex(), "clock": clock, "firmware": quote.firmware}
        counts = dict(self.report.counts)
        compared = {"expected": word for word in self.expected} | ({"registers": report["registers"]} if self.is_confirmed else {})
        against = {name: report[name] for name in ("extends", "known_from", "unknown") if name in report}
        concluded = {"quote": "match" if self.is_quoted else "differ", "signature": self.signature,
                     "verdict": report["verdict"] if self.is_signed else "signature not checked"}
        return {**stated, **counts, **compared, **against, **concluded}


def boot_of(quote):
    """The boot in which a TPM made a quote, by its counts."""
    return quote.resets, quote.restarts


def sound_requirement(require, nonce, takes_sha1):
    """The registers that a text requires, or the fault where these and the nonce are refused."""
    required = read_requirement(require)
    try:
        require_sound(nonce, required or set(), takes_sha1)
    except NotAttested:
        raise USAGE from None
    return required


def asked_quote(message, nonce, required):
    """The quote that a message is, or the fault where it is none, or another than is asked for."""
    try:
        quote = read_quote(message)
        require_asked_for(quote, nonce, required)
    except (QuoteFault, NotAttested) as cause:
        raise quote_fault(cause.args[0]) from None
    return quote


def stated_rows(quote, expected):
    """What came of a text of expected registers, or of None: None without a text, else whether the quote confirms them; and their rows."""
    if expected is None:
        return None, []
    rows = confirmed_by(quote, read_expected(expected))
    return rows is not None, rows or []


def read_state(text, quote):
    """The checkpoint of a text, or the fault where it was not saved by a quote of the same boot."""
    start = read_checkpoint(text)
    if start.boot != boot_of(quote):
        raise CheckpointFault.OTHER_COUNTS.fault()
    return start


def is_confirmed(prefix, quote, rule):
    """Whether the boot aggregate of a prefix is good by a rule, and the quote is of the registers after it."""
    return boot_aggregate_state(prefix, rule) in GOOD and quote.is_of(prefix.after.value)


def quoted_report(boot, start, entries, fault, quote, signature, prefix, stated, takes_old=False):
    """The report by a quote on what a list has from a checkpoint on: entries, and the fault that ends them, or None. It is on the shortest prefix
    that the quote confirms, if that is sought and there is one; else on the whole list, or its fault is raised. What extends a register that
    is not its own is told by the report."""
    (is_stated, rows), rule = stated, Rule(True, takes_old)
    end = confirmed_prefix(start, entries, lambda part: is_confirmed(part, quote, rule)) if prefix else None
    if end:
        report = prefix_report(boot, end, start, entries, fault, rows, rule=rule)
    elif fault:
        raise fault
    else:
        end = start.following(entries)
        report = report_at(boot, end, rows, rule=rule)
    strays = strays_in(boot.events, end.stray)
    report = report._replace(strays=strays, matches=is_confirmed(end, quote, rule) and not strays)
    return AttestReport(quote, report, is_stated, quote.is_of(end.after.value), signature, end)


def attest_report(log, measurements, message, nonce, require, takes_sha1=False, signature=CHECKED, state=None, prefix=False,
                  expected=None, takes_old=False):
    """The report by a quote on the bytes of a log and of a list, or of what follows the checkpoint that `state` is, where `require` is a text, and
    `expected` a text or None; or the fault that comes first."""
    quote = asked_quote(message, nonce, sound_requirement(require, nonce, takes_sha1))
    stated = stated_rows(quote, expected)
    start = None if state is None else read_state(state, quote)
    boot = read_log(log)
    before = boot.registers()
    start = start or before_a_list(before)
    if start.before.banks != before.banks:
        raise CheckpointFault.OTHER_BOOT.fault()
    return quoted_report(boot, start, *read_prefix(measurements, start.entries), quote, signature, prefix, stated, takes_old)
