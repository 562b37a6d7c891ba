#!/usr/bin/env python3
"""Prints what tpm2_pcrread prints of a TPM with four banks after the real boot, where each event of the log has a digest for
each bank: its own by SHA-256, and by every other algorithm the hash of that one. The list's entries are extended into every
bank, as Linux 5.8 and later do: by the bank's hash of the payload, a violation by bytes 0xFF. The SHA-256 bank is that of the
real boot (`expected.txt`), which this script checks. An emulated TPM (swtpm), extended by tpm2_pcrextend with these digests, printed
the same text.

samples/four-banks/make.py > samples/four-banks/tpm2_pcrread.txt"""

import sys
from pathlib import Path

SAMPLES = Path(__file__).resolve().parent.parent
BOOT = SAMPLES / "real-boot"
sys.path.append(str(SAMPLES.parent / "tests"))

from reference.log import read_log  # noqa: E402
from reference.measurement_list import read_list, replay  # noqa: E402
from reference.registers import ALGORITHMS, SHA256, Registers  # noqa: E402
from reference.texts import pcrread_text, read_expected  # noqa: E402


def main():
    registers = Registers(ALGORITHMS)
    for event in read_log((BOOT / "firmware.log").read_bytes()).events:
        own = event.digest_of(SHA256)
        if event.is_extended:
            registers.extend(event.register, lambda algorithm: own if algorithm is SHA256 else algorithm.hash(own))
    replay(registers, read_list((BOOT / "ima.list").read_bytes()))
    for row in read_expected((BOOT / "expected.txt").read_bytes()):
        assert registers.value(row.algorithm, row.register) == row.value
    print(pcrread_text(registers), end="")


if __name__ == "__main__":
    main()
