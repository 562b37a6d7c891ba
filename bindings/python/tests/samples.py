"""What the tests share: the package and the reference on the path, and the samples."""

import hashlib
import json
import sys
from pathlib import Path

ROOT = Path(__file__).resolve().parents[3]
sys.path[:0] = [str(ROOT / "bindings/python"), str(ROOT / "tests")]

from ima_verify import Quote  # noqa: E402
from reference.checkpoint import before_a_list  # noqa: E402
from reference.log import read_log  # noqa: E402
from reference.measurement_list import list_spelling, read_list  # noqa: E402
from reference.registers import SHA256  # noqa: E402


def sample(name):
    return (ROOT / "samples" / name).read_bytes()


LOG, LIST, EXPECTED, ASCII, REGISTERS, PRINTED = (
    sample(f"real-boot/{name}")
    for name in ("firmware.log", "ima.list", "expected.txt", "ima.ascii", "registers.txt",
                 "tpm2_pcrread.txt")
)
KEY, MESSAGE, SIGNATURE = (
    sample(f"quoted/{name}") for name in ("AK.pem", "quote.msg", "quote.sig")
)
# The log with an event of an H-CRTM, and what then tells where PCR 0 began (StartupLocality).
HCRTM = LOG + b"".join(
    number.to_bytes(size, "little")
    for number, size in ((0, 4), (0x80000010, 4), (1, 4), (11, 2), (7, 32), (0, 4))
)
TOLD = HCRTM + bytes((*4 * (0,), 3, *7 * (0,), 17, 0, 0, 0)) + b"StartupLocality\0\4"
NONCE = bytes.fromhex(sample("quoted/nonce").decode())
# A list whose boot aggregate is of PCRs 0 to 7 alone, the PCRs after it, and the quote of these.
_VALUES = [bytes.fromhex(line.split()[2].decode()) for line in EXPECTED.splitlines()[:11]]
_DATA = b"".join(len(part).to_bytes(4, "little") + part for part in (
    b"sha256:\0" + hashlib.sha256(b"".join(_VALUES[:8])).digest(), b"boot_aggregate\0"))
OLDER = b"".join((b"\n\0\0\0", hashlib.sha1(_DATA).digest(), b"\6\0\0\0ima-ng",
                  len(_DATA).to_bytes(4, "little"), _DATA))
_TENTH = hashlib.sha256(bytes(32) + hashlib.sha256(_DATA).digest()).digest()
OLDER_EXPECTED = b"".join(EXPECTED.splitlines(True)[:10]) + f"sha256 10 {_TENTH.hex()}\n".encode()
OLDER_MESSAGE = MESSAGE[:-32] + hashlib.sha256(b"".join([*_VALUES[:10], _TENTH])).digest()
AREA = sample("keys/ak-p256.pub")
# The files of the list, but for its violations.
SUMS, VIOLATIONS = sample("known/SHA256SUMS"), (93, 94, 97)
REQUIRED = {"require": "sha256:0-10"}
QUOTED, BY_KEY = {**REQUIRED, "nonce": NONCE}, (KEY, MESSAGE, SIGNATURE)
QUOTE = Quote(*BY_KEY, LIST, **QUOTED)

ENTRIES = read_list(LIST)
# Where each entry starts, and where the last ends.
ENDS = [len(list_spelling(ENTRIES[:count])) for count in range(len(ENTRIES) + 1)]
LONGER = LIST + LIST[ENDS[98]:]
CHANGED = LIST.replace(b"/bin/helper", b"/bin/helpex")  # (entry 5)
LINES = EXPECTED.splitlines(True)

# Real answers, which the packages of all languages read.
TABLE = [json.loads(line) for line in (ROOT / "tests/bindings/answers.jsonl").open()]


def of_kind(*kinds):
    """The answers of the table of these kinds."""
    return [answer for answer in TABLE if answer["kind"] in kinds]


def line_of(kind, **members):
    """The first line of this kind that has these members, with its line feed."""
    for answer in of_kind(kind):
        if members.items() <= json.loads(answer["line"]).items():
            return (answer["line"] + "\n").encode()
    raise LookupError(kind)


def tenth_after(count):
    """The expected PCRs of the sample, with PCR 10 as it is after so many entries."""
    value = bytes(32)
    for entry in ENTRIES[:count]:
        value = hashlib.sha256(value + entry.digest_of(SHA256)).digest()
    return b"".join([*LINES[:10], f"sha256 10 {value.hex()}\n".encode(), *LINES[11:]])


def state_after(count):
    """The state after so many entries, by the reference."""
    return before_a_list(read_log(LOG).registers()).following(ENTRIES[:count]).text()
