#!/usr/bin/env python3
"""Quotes of an emulated TPM into which the sample boot was extended, and what tpm2_quote and tpm2_checkquote print of them.

    tests/attest/emulated.py samples/quoted/make.py [DIR]

Writes the files of this folder, anew, into DIR (by default this folder). The TPM makes its keys by chance, so keys, quotes and the
digits of signatures differ from run to run, and nothing else does."""

import os
import shutil
import subprocess
import sys
import tempfile
from pathlib import Path

NONCE = "5a0f1d3c7b2e48690123456789abcdef00112233"
STALE = "5a0f1d3c7b2e48690123456789abcdef00112234"
LOW = ",".join(map(str, range(11)))
SELECTIONS = {
    "sha256": f"sha256:{LOW}",
    "two-banks": f"sha1:{LOW}+sha256:{LOW}",
    "four-banks": "sha1:10+sha256:10+sha384:10+sha512:10",
    "all-registers": "sha1:all+sha256:all+sha384:all+sha512:all",
    "bank-without-registers": f"sha1:none+sha256:{LOW}",
    "bank-twice": "sha256:4+sha1:10+sha256:10",
    "no-register": "sha256:none",
}


def tool(*words):
    """Runs a tool that must succeed: what it prints."""
    return subprocess.run(words, check=True, stdout=subprocess.PIPE).stdout


def make_key(name):
    """A new attestation key: name.ctx, and name.pem, its public part."""
    tool("tpm2_createak", "-C", "ek.ctx", "-c", f"{name}.ctx", "-G", "rsa", "-g", "sha256", "-s", "rsassa", "-u", f"{name}.pem",
         "-f", "pem", "-n", f"{name}.name")


def quote(name, selection):
    """A quote of the selection, as tpm2_quote prints it."""
    return tool("tpm2_quote", "-c", "AK.ctx", "-l", selection, "-q", NONCE, "-m", f"{name}.msg", "-s", f"{name}.sig", "-o", f"{name}.pcrs")


def check(key, name, pcrs, nonce):
    """What tpm2_checkquote prints of a quote, its status, and what it says on standard error."""
    words = ["tpm2_checkquote", "-u", key, "-m", f"{name}.msg", "-s", f"{name}.sig", "-f", pcrs, "-q", nonce]
    ended = subprocess.run(words, stdout=subprocess.PIPE, stderr=subprocess.PIPE)
    return ended.stdout, ended.returncode, ended.stderr.decode()


def plain(signature):
    """What `tpm2_quote -f plain` writes: a TPMT_SIGNATURE by RSASSA without its scheme, hash and size, of two bytes each."""
    return signature[6:]


def change_value():
    """A PCR file in which the last register's value has one bit turned."""
    values = bytearray(Path("sha256.pcrs").read_bytes())
    place = values.index(bytes.fromhex("e8ed95b94e8d66f4"))
    values[place] ^= 1
    Path("changed.pcrs").write_bytes(values)


def make(folder):
    tool("tpm2_createek", "-c", "ek.ctx", "-G", "rsa", "-u", "ek.pub")
    make_key("AK")
    make_key("other")
    quotes = {name: quote(name, selection) for name, selection in SELECTIONS.items()}
    (folder / "tpm2_quote.txt").write_bytes(quotes["sha256"])
    change_value()
    Path("empty").touch()
    checks = {name: check("AK.pem", name, f"{name}.pcrs", NONCE) for name in SELECTIONS}
    checks["stale-nonce"] = check("AK.pem", "sha256", "sha256.pcrs", STALE)
    checks["wrong-key"] = check("other.pem", "sha256", "sha256.pcrs", NONCE)
    checks["changed-value"] = check("AK.pem", "sha256", "changed.pcrs", NONCE)
    checks["empty-values"] = check("AK.pem", "sha256", "empty", NONCE)
    statuses = ""
    for name, (text, status, said) in checks.items():
        (folder / f"{name}.txt").write_bytes(text)
        statuses += f"{name} {status}\n{said}"
    (folder / "statuses").write_text(statuses)
    for given, name in {"AK.pem": "AK.pem", "sha256.msg": "quote.msg", "sha256.sig": "quote.tpmt"}.items():
        shutil.copyfile(given, folder / name)
    (folder / "quote.sig").write_bytes(plain(Path("sha256.sig").read_bytes()))
    (folder / "nonce").write_text(f"{NONCE}\n")


def main():
    folder = Path(*sys.argv[1:2] or [Path(__file__).parent]).resolve(strict=True)
    with tempfile.TemporaryDirectory() as work:
        os.chdir(work)
        make(folder)


if __name__ == "__main__":
    main()
