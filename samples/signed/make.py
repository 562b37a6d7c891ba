#!/usr/bin/env python3
"""Quotes by attestation keys of each kind, of an emulated TPM into which the sample boot was extended, with their signatures in both forms.

    tests/attest/emulated.py samples/signed/make.py [DIR]

Writes the files of this folder, anew, into DIR (by default this folder). The TPM makes its keys by chance, so keys, quotes and signatures differ
from run to run, and nothing else does. openssl takes each signature."""

import os
import shutil
import subprocess
import sys
import tempfile
from pathlib import Path

NONCE = "5a0f1d3c7b2e48690123456789abcdef00112233"
SELECTION = "sha256:0,1,2,3,4,5,6,7,8,9,10"
# The keys: type, hash and scheme, in the words of tpm2_createak.
KEYS = {
    "rsassa": ("rsa2048", "sha256", "rsassa"),
    "rsapss": ("rsa2048", "sha384", "rsapss"),
    "rsa3072": ("rsa3072", "sha512", "rsassa"),
    "p256": ("ecc256", "sha256", "ecdsa"),
    "p384": ("ecc384", "sha384", "ecdsa"),
    "p521": ("ecc521", "sha512", "ecdsa"),
}
PSS = ("-sigopt", "rsa_padding_mode:pss", "-sigopt", "rsa_pss_saltlen:auto")


def tool(*words):
    """Runs a tool that must succeed."""
    subprocess.run(words, check=True, stdout=subprocess.DEVNULL)


def sized(data):
    """The bytes after their number in two bytes, and what follows these."""
    end = 2 + int.from_bytes(data[:2], "big")
    return data[2:end], data[end:]


def der_integer(number):
    """The INTEGER of a number of DER."""
    number = number.lstrip(b"\0")
    number = b"\0" + number if number[0] > 127 else number
    return bytes([2, len(number)]) + number


def plain(signature, scheme):
    """What `tpm2_quote -f plain` writes: the number of a TPMT_SIGNATURE alone, or the two numbers of one by ECDSA in DER."""
    first, rest = sized(signature[4:])
    if scheme != "ecdsa":
        return first
    numbers = der_integer(first) + der_integer(sized(rest)[0])
    return bytes([0x30, *([0x81] if len(numbers) > 127 else []), len(numbers)]) + numbers


def make_quote(name, kind, hashed, scheme):
    """A key, its quote and the signature: NAME.pub, NAME.pem, NAME.msg, NAME.tpmt, NAME.sig."""
    tool("tpm2_createak", "-C", "ek.ctx", "-c", f"{name}.ctx", "-G", kind, "-g", hashed, "-s", scheme, "-u", f"{name}.pub")
    tool("tpm2_flushcontext", "--transient-object")
    tool("tpm2_readpublic", "-c", f"{name}.ctx", "-f", "pem", "-o", f"{name}.pem")
    tool("tpm2_flushcontext", "--transient-object")
    tool("tpm2_quote", "-c", f"{name}.ctx", "-l", SELECTION, "-q", NONCE, "-g", hashed, "--scheme", scheme, "-m", f"{name}.msg", "-s", f"{name}.tpmt")
    tool("tpm2_flushcontext", "--transient-object")
    Path(f"{name}.sig").write_bytes(plain(Path(f"{name}.tpmt").read_bytes(), scheme))
    padding = PSS if scheme == "rsapss" else ()
    tool("openssl", "dgst", f"-{hashed}", *padding, "-verify", f"{name}.pem", "-signature", f"{name}.sig", f"{name}.msg")


def make(folder):
    tool("tpm2_createek", "-c", "ek.ctx", "-G", "rsa", "-u", "ek.pub")
    for name, key in KEYS.items():
        make_quote(name, *key)
        for end in ("pub", "pem", "msg", "tpmt", "sig"):
            shutil.copyfile(f"{name}.{end}", folder / f"{name}.{end}")


def main():
    folder = Path(*sys.argv[1:2] or [Path(__file__).parent]).resolve(strict=True)
    with tempfile.TemporaryDirectory() as work:
        os.chdir(work)
        make(folder)


if __name__ == "__main__":
    main()
