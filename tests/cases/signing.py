#!/usr/bin/env python3
"""Makes the keys and the signatures that cases have as bytes, since no TPM would make them so, and prints them as the files of shared.files.

tests/cases/signing.py

Keys are made by chance, and their private parts are not kept: what is printed replaces all of these files, and PEM in the cases. Public areas
are those of samples/keys with other numbers. The quote that is signed is the one of shared.files."""

import sys
from pathlib import Path

sys.path.insert(0, str(Path(__file__).resolve().parents[1]))
import form  # noqa: E402
from cryptography.hazmat.primitives import hashes, serialization  # noqa: E402
from cryptography.hazmat.primitives.asymmetric import ec, padding, rsa, utils  # noqa: E402

QUOTE = form.read_shared()["quote"]
NO_QUOTES = {"of-text": b"quoted:\n", "of-cut": QUOTE[:-1]}
PSS = padding.PSS(padding.MGF1(hashes.SHA256()), padding.PSS.DIGEST_LENGTH)
PEM = serialization.Encoding.PEM, serialization.PublicFormat.SubjectPublicKeyInfo


def until(makes, is_wanted):
    """What a call makes, as soon as it is what is wanted."""
    while not is_wanted(made := makes()):
        pass
    return made


def begins_with_zero(number, size):
    return number >> 8 * (size - 1) == 0


def rsa_files():
    """An RSA key that signs by PSS with SHA-256, and its signatures: that of the quote begins with a zero, and there is another one by SHA-1."""
    key = rsa.generate_private_key(65537, 2048)
    yield "signing-key hex", f"@samples/keys/ak-rsapss.pub[:16] 000b 0800 00000000 0100\n{key.public_key().public_numbers().n:0512x}\n"
    yield "signing-key-pem", key.public_key().public_bytes(*PEM).decode()
    signatures = {"signature": until(lambda: key.sign(QUOTE, PSS, hashes.SHA256()), lambda number: number[0] == 0)}
    signatures |= {f"signature-{name}": key.sign(message, PSS, hashes.SHA256()) for name, message in NO_QUOTES.items()}
    for name, number in signatures.items():
        yield f"{name} hex", f"0016 000b 0100\n{number.hex()}\n"
    yield "signature-by-sha1 hex", f"0014 0004 0100\n{key.sign(QUOTE, padding.PKCS1v15(), hashes.SHA1()).hex()}\n"


def ecdsa(key):
    """The numbers r and s of a signature of the quote."""
    return utils.decode_dss_signature(key.sign(QUOTE, ec.ECDSA(hashes.SHA256())))


def ecc_files():
    """A key on P-256 whose point begins with a zero, and its signature of the quote, which begins with one."""
    key = until(lambda: ec.generate_private_key(ec.SECP256R1()), lambda key: begins_with_zero(key.public_key().public_numbers().x, 32))
    point, (r, s) = key.public_key().public_numbers(), until(lambda: ecdsa(key), lambda numbers: begins_with_zero(numbers[0], 32))
    yield "p256-key hex", f"@samples/keys/ak-p256.pub[:24] {point.x:064x}\n0020 {point.y:064x}\n"
    yield "p256-key-pem", key.public_key().public_bytes(*PEM).decode()
    yield "p256-signature hex", f"0018 000b 0020 {r:064x}\n0020 {s:064x}\n"


if __name__ == "__main__":
    for head, body in (*rsa_files(), *ecc_files()):
        print(f"-- {head} --\n{body}", end="")
