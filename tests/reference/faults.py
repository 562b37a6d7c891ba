"""The faults of docs/errors.txt with their numbers, and the lines that tell them."""

from enum import IntEnum


class Fault(Exception):
    """Why there is no answer: the line in its place, the kind, the exit status, and the number and the place that the fault has, if any."""

    def __init__(self, line, kind, status=2, number=None, **place):
        super().__init__(line)
        self.line, self.kind, self.status, self.number, self.place = line, kind, status, number, place

    def as_json(self):
        """The fault as JSON."""
        return {"fault": self.members(self.line)}

    def members(self, line):
        """What is told of the fault as JSON, where this line tells it."""
        numbered = {} if self.number is None else {"number": self.number}
        return {"kind": self.kind, **numbered, **self.place, "message": line}

    def unconfirmed(self):
        """The same, where it is told of what comes after the confirmed prefix."""
        return self.members(f"unconfirmed: {self.line.removeprefix('refused: ')}")


class LogFault(IntEnum):
    TRUNCATED = 1
    NOT_CRYPTO_AGILE = 2
    BAD_HEADER = 3
    DIGEST_SIZE = 4
    NO_BANK = 5
    UNKNOWN_ALG = 6
    DOUBLE_DIGEST = 7
    MISSING_DIGEST = 8
    BAD_REGISTER = 9

    def at(self, event):
        names_no_event = LogFault.NOT_CRYPTO_AGILE <= self <= LogFault.NO_BANK
        if names_no_event:
            return Fault(f"refused: log fault {self.value}", "log", number=self.value)
        return Fault(f"refused: log fault {self.value} at event {event}", "log", number=self.value, event=event)


class LogFormFault(IntEnum):
    """Those that a log in another form can have beside those of a log."""

    OLD_TRUNCATED = 11
    OLD_REGISTER = 12
    NOT_A_LOG = 13

    @staticmethod
    def of_log(fault):
        """The fault of a log, where it is one of a log in another form."""
        return Fault(fault.line.replace("log fault", "log form fault"), "log_form", number=fault.number, **fault.place)

    def at(self, event):
        """The fault of an event in the SHA-1 form; where the first one is missing, the bytes are no log."""
        if event == 1:
            return LogFormFault.NOT_A_LOG.fault()
        return Fault(f"refused: log form fault {self.value} at event {event}", "log_form", number=self.value, event=event)

    def fault(self):
        return Fault(f"refused: log form fault {self.value}", "log_form", number=self.value)


class ListFault(IntEnum):
    TRUNCATED = 1
    BAD_REGISTER = 2
    NAME_TOO_LONG = 3

    def at(self, entry):
        return Fault(f"refused: list fault {self.value} at entry {entry}", "list", number=self.value, entry=entry)


# The faults of a quote by name, from 1 on: those of a message from left to right, and then those of a message that is not asked for.
QUOTE_FAULTS = ("Truncated", "NotQuote", "BadClock", "UnknownBank", "BankTwice", "ManyBanks", "BadRegister", "NothingSelected", "DigestSize",
                "Trailing", "OtherNonce", "NotSelected")


def quote_fault(name):
    number = QUOTE_FAULTS.index(name) + 1
    return Fault(f"refused: quote fault {number}", "quote", status=4, number=number)


# The faults of a key by name, from 1 on: those of a public area, those of any key, of an attestation key, and of an endorsement key.
KEY_FAULTS = ("Truncated", "OtherType", "UnknownHash", "OtherSymmetric", "UnknownScheme", "OtherExponent", "UnknownCurve", "KeyDerivation",
              "KeySize", "Trailing",
              "WeakName", "LeavesTpm", "LeavesParent", "NotMadeByTpm", "Unrestricted", "ShortKey",
              "DoesNotSign", "Decrypts", "NoSigningScheme", "WeakHash",
              "Signs", "DoesNotDecrypt")


def key_fault(name):
    number = KEY_FAULTS.index(name) + 1
    return Fault(f"refused: key fault {number}", "key", number=number)


# The refusals of a signature by name, from 1 on: those of its bytes from left to right, those of a signature that the key does not make, and those
# of a key.
SIGNATURE_REFUSALS = ("Truncated", "UnknownScheme", "UnknownHash", "Trailing", "OtherScheme", "OtherHash", "NotSigned", "OtherKey", "OtherPem")


def signature_fault(name):
    number = SIGNATURE_REFUSALS.index(name) + 1
    return Fault(f"refused: signature fault {number}", "signature", status=4, number=number)


class ReplayFault(IntEnum):
    BAD_TEMPLATE_DIGEST = 1

    def at(self, entry):
        return Fault(f"refused: replay fault {self.value} at entry {entry}", "replay", number=self.value, entry=entry)


class ExpectedFault(IntEnum):
    BAD_LINE = 1
    DOUBLE_LINE = 2
    NOT_CHECKED = 4
    NOT_SIGNED = 5
    NO_REGISTER = 6

    def at(self, line):
        return Fault(f"refused: expected fault {self.value} at line {line}", "expected", number=self.value)

    def of_text(self):
        return Fault(f"refused: expected fault {self.value}", "expected", number=self.value)


class KnownFault(IntEnum):
    WEAK_HASH = 1
    MALFORMED = 2

    def at(self, line):
        return Fault(f"refused: known fault {self.value} at line {line}", "known", number=self.value)


class TextListFault(IntEnum):
    """Those of a list as text."""

    MALFORMED = 1
    UNKNOWN_TEMPLATE = 2
    WRONG_DIGEST = 3
    TOO_LONG = 4

    def at(self, line):
        return Fault(f"refused: text list fault {self.value} at line {line}", "text_list", number=self.value)


class CheckpointFault(IntEnum):
    DAMAGED = 1
    VERSION = 2
    OTHER_BOOT = 3
    OTHER_COUNTS = 4

    def fault(self):
        return Fault(f"refused: checkpoint fault {self.value}", "checkpoint", number=self.value)


class BookFault(IntEnum):
    """Those that a measurement of files can have."""

    WRONG_HASH = 1
    NO_BANK = 2
    PATH_TOO_LONG = 5
    FULL = 7

    def at_opening(self):
        return Fault(f"refused: book fault {self.value}", "book", number=self.value)

    def of_file(self, job):
        return Fault(f"refused: job {job} book fault {self.value}", "job", number=self.value)


USAGE = Fault("refused: command line", "command_line")
NOT_HEXADECIMAL = Fault("refused: not hexadecimal", "not_hexadecimal")
MEMORY = Fault("failed: memory", "memory", status=3)


def too_long(name):
    return Fault(f"refused: too long {name}", "too_long")


def not_utf8(name):
    return Fault(f"refused: not UTF-8 {name}", "not_utf8")


def not_read(name):
    return Fault(f"failed: read {name}", "read", status=3)


def not_written(name):
    return Fault(f"failed: write {name}", "write", status=3)
