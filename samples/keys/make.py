#!/usr/bin/env python3
"""Public areas of keys of an emulated TPM, as tpm2-tools write them, with the names and the PEMs that they give for the same keys.

    tests/attest/emulated.py samples/keys/make.py [DIR]

Writes the files of this folder, anew, into DIR (by default this folder). The TPM makes its keys by chance, so the keys differ from run to
run, and nothing else does."""

import os
import shutil
import subprocess
import sys
import tempfile
from pathlib import Path

# The attestation keys: type, hash and scheme, in the words of tpm2_createak.
ATTESTATION_KEYS = {
    "ak-rsassa": ("rsa", "sha256", "rsassa"),
    "ak-rsapss": ("rsa", "sha384", "rsapss"),
    "ak-p256": ("ecc", "sha256", "ecdsa"),
    "ak-p384": ("ecc384", "sha384", "ecdsa"),
    "ak-p521": ("ecc521", "sha512", "ecdsa"),
    "ak-sha1": ("rsa", "sha1", "rsassa"),
}
ENDORSEMENT_KEYS = {"ek-rsa": "rsa", "ek-p256": "ecc"}
# A key that signs whatever it is given.
UNRESTRICTED = "fixedtpm|fixedparent|sensitivedataorigin|userwithauth|sign"


def tool(*words):
    """Runs a tool that must succeed."""
    subprocess.run(words, check=True, stdout=subprocess.DEVNULL)


def make_keys():
    """The public area of each key, NAME.pub, and what the TPM loads it from, NAME.ctx."""
    for name, kind in ENDORSEMENT_KEYS.items():
        tool("tpm2_createek", "-c", f"{name}.ctx", "-G", kind, "-u", f"{name}.pub")
    for name, (kind, hashed, scheme) in ATTESTATION_KEYS.items():
        tool("tpm2_createak", "-C", "ek-rsa.ctx", "-c", f"{name}.ctx", "-G", kind, "-g", hashed, "-s", scheme, "-u", f"{name}.pub")
    tool("tpm2_createprimary", "-C", "o", "-c", "storage.ctx")
    tool("tpm2_readpublic", "-c", "storage.ctx", "-f", "tss", "-o", "storage.pub")
    tool("tpm2_create", "-C", "storage.ctx", "-G", "rsa2048", "-a", UNRESTRICTED, "-u", "unrestricted.pub", "-r", "unrestricted.priv",
         "-c", "unrestricted.ctx")


def make(folder):
    make_keys()
    names = ""
    for area in sorted(Path().glob("*.pub")):
        tool("tpm2_flushcontext", "--transient-object")
        tool("tpm2_readpublic", "-c", f"{area.stem}.ctx", "-n", "name", "-f", "pem", "-o", f"{area.stem}.pem")
        names += f"{Path('name').read_bytes().hex()} {area}\n"
        for file in (area, area.with_suffix(".pem")):
            shutil.copyfile(file, folder / file)
    (folder / "names").write_text(names)


def main():
    folder = Path(*sys.argv[1:2] or [Path(__file__).parent]).resolve(strict=True)
    with tempfile.TemporaryDirectory() as work:
        os.chdir(work)
        make(folder)


if __name__ == "__main__":
    main()
