#!/usr/bin/env python3
"""Has machines without TPMs answer nonces with quotes, by keys of its own: as many as a measurement needs.

tests/fleet/quoted.py MACHINES GIVEN KEYS EXPECTED

MACHINES is a table of machines, each with a folder, and GIVEN the folder into which `fleet-verify nonces --folder` wrote their nonces.
Into each machine's folder come `quote.msg`, of the registers 0 to 10 that the text EXPECTED states, and `quote.sig`; and into the folder
KEYS the public areas of the keys, which are of RSA 2048: a few, which the machines have in turn. It needs the package `cryptography`."""

import hashlib
import subprocess
import sys
from pathlib import Path

HEAD = bytes.fromhex("ff5443478018")  # of a quote that a TPM made
SELECTED = bytes.fromhex("00000001000b03ff0700")  # one bank, sha256, registers 0 to 10
CLOCK = bytes(7) + b"\1" + (3).to_bytes(4, "big") + bytes(4) + b"\1"  # a millisecond, three resets, no restart, safe
SIGNERS = 4
MODULUS = 256  # bytes, which are the last of an area
AREA = (Path(__file__).resolve().parents[2] / "samples/keys/ak-rsassa.pub").read_bytes()[:-MODULUS]
LOW = range(11)


def sized(data):
    return len(data).to_bytes(2, "big") + data


def quoted_digest(expected):
    """The hash of the registers 0 to 10 of bank sha256 that a text states."""
    rows = [line.split() for line in expected.splitlines() if line.startswith("sha256 ")]
    values = {int(register): bytes.fromhex(value) for _, register, value in rows}
    return hashlib.sha256(b"".join(values[register] for register in LOW)).digest()


def quote_message(nonce, digest):
    """What a TPM would sign (TPM 2.0 Library, part 2, 'Attestation Structures')."""
    return HEAD + sized(bytes(34)) + sized(nonce) + CLOCK + bytes(8) + SELECTED + sized(digest)


def answer(machines, given, keys, expected):
    from cryptography.hazmat.primitives import hashes
    from cryptography.hazmat.primitives.asymmetric import padding, rsa

    signers = [rsa.generate_private_key(65537, 2048) for _ in range(SIGNERS)]
    areas = [AREA + signer.public_key().public_numbers().n.to_bytes(MODULUS, "big") for signer in signers]
    digest = quoted_digest(expected.read_text())
    keys.mkdir(exist_ok=True)
    for number, line in enumerate(machines.read_text().splitlines()):
        name, folder = line.split("\t")
        message = quote_message(bytes.fromhex((given / name).read_text()), digest)
        Path(folder, "quote.msg").write_bytes(message)
        Path(folder, "quote.sig").write_bytes(signers[number % SIGNERS].sign(message, padding.PKCS1v15(), hashes.SHA256()))
        (keys / f"{name}.pub").write_bytes(areas[number % SIGNERS])


def give_quotes(processes, machines, verdicts, expected, answering=None):
    """Gives the machines of a table quotes for one run with this table of verdicts, or those of another table that answer, and is the folder of
    their keys."""
    given, keys = machines.with_suffix(".nonces"), machines.with_suffix(".keys")
    program = Path(__file__).resolve().parents[2] / "fleet/verify.py"
    answer_those = [Path(__file__).resolve(), answering or machines, given, keys, expected]
    for words in ([program, "nonces", "--folder", given, machines, verdicts], answer_those):
        subprocess.run([processes.python, *map(str, words)], env=processes.environment, check=True)
    return keys


if __name__ == "__main__":
    answer(*map(Path, sys.argv[1:]))
