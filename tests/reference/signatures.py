"""Who signed a message: a key as its public area or as PEM, and a signature as a TPM gives it (TPM 2.0 Library, part 2, 'TPMT_SIGNATURE'), or its
numbers alone. All of these are read here; whether the numbers are a signature is what Python's cryptography says."""

import re
from base64 import b64decode
from contextlib import suppress
from typing import NamedTuple, Optional

from .faults import signature_fault
from .fields import Cut, Fields
from .keys import BIT_STRING, CURVES, EC_PUBLIC_KEY, EXPONENT, INTEGER, PEM_BEGIN, PEM_END, RSA_ENCRYPTION, SEQUENCE, EccKey, RsaKey, pem_of, read_key
from .registers import BY_IDENTIFIER, SHA1, SHA256, SHA384, SHA512, Algorithm

try:
    from cryptography.exceptions import InvalidSignature
    from cryptography.hazmat.primitives import hashes
    from cryptography.hazmat.primitives.asymmetric import ec, padding, rsa, utils
    LACKS_CRYPTOGRAPHY = False
except ModuleNotFoundError:
    LACKS_CRYPTOGRAPHY = True

# The hashes of signatures that are taken.
HASHES = (SHA256, SHA384, SHA512)
SCHEMES = {0x0014: "rsassa", 0x0016: "rsapss", 0x0018: "ecdsa"}
LEAST_BITS, MOST_BITS, MOST_CURVE_BITS = 2048, 4096, 384
PEM = re.compile(rb"%b\n((?:[A-Za-z0-9+/]{64}\n)*[A-Za-z0-9+/]*=*\n)%b\n" % (PEM_BEGIN.encode(), PEM_END.encode()))
ANY_PEM = b"-----BEGIN"
UNCOMPRESSED = b"\x04"


class Lacking(Exception):
    """The machine has no cryptography for Python."""


class SigningKey(NamedTuple):
    """A key, and the scheme and hash by which it signs, or None where its numbers alone are known."""

    key: RsaKey | EccKey
    scheme: Optional[str]
    hash: Optional[Algorithm]

    @property
    def schemes(self):
        """Those by which a key of its type can sign, if no other is known."""
        return [self.scheme] if self.scheme else ["rsassa", "rsapss"] if self.key.type == "rsa" else ["ecdsa"]

    @property
    def hashes(self):
        return [self.hash] if self.hash else HASHES

    def is_signed(self, message, scheme, hash, numbers):
        """Whether numbers are a signature of a message."""
        return (is_signed_by_rsa if self.key.type == "rsa" else is_signed_by_ecc)(self.key, message, scheme, hash, *numbers)


def refuse_unless(holds, refusal):
    if not holds:
        raise signature_fault(refusal)


# ---- what cryptography says


def is_verified(verify):
    """Whether cryptography takes what a call has it verify."""
    if LACKS_CRYPTOGRAPHY:
        raise Lacking
    try:
        verify()
    except (InvalidSignature, ValueError):
        return False
    return True


def is_signed_by_rsa(key, message, scheme, hash, number):
    # (RFC 8017, sections 8.1.2 and 8.2.2, step 1: as many bytes as the modulus has. cryptography takes fewer for PSS)
    if len(number) != (key.bits + 7) // 8:
        return False

    def verify():
        its = getattr(hashes, hash.name.upper())()
        mode = padding.PKCS1v15() if scheme == "rsassa" else padding.PSS(padding.MGF1(its), padding.PSS.AUTO)
        rsa.RSAPublicNumbers(EXPONENT, key.modulus).public_key().verify(number, message, mode, its)

    return is_verified(verify)


def is_signed_by_ecc(key, message, scheme, hash, *numbers):
    x, y, r, s = (int.from_bytes(number, "big") for number in (key.x, key.y, *numbers))

    def verify():
        curve, its = {256: ec.SECP256R1, 384: ec.SECP384R1}[key.bits](), getattr(hashes, hash.name.upper())()
        ec.EllipticCurvePublicNumbers(x, y, curve).public_key().verify(utils.encode_dss_signature(r, s), message, ec.ECDSA(its))

    return is_verified(verify)


# ---- keys


def read_der(data, tag):
    """The content of the value of DER with this tag at the beginning, and what follows it; or ValueError. Its spelling is not looked at."""
    if data[:1] != tag or len(data) < 2:
        raise ValueError
    start = 2 + max(data[1] - 0x80, 0)
    end = start + (data[1] if data[1] < 0x80 else int.from_bytes(data[2:start], "big"))
    if end > len(data):
        raise ValueError
    return data[start:end], data[end:]


def key_in_info(info):
    """The key of a SubjectPublicKeyInfo, or None. Its spelling is not looked at."""
    parts, _ = read_der(info, SEQUENCE)
    algorithm, rest = read_der(parts, SEQUENCE)
    bits, _ = read_der(rest, BIT_STRING)
    if algorithm.startswith(RSA_ENCRYPTION):
        numbers, _ = read_der(bits[1:], SEQUENCE)
        modulus = int.from_bytes(read_der(numbers, INTEGER)[0], "big")
        return RsaKey(modulus.bit_length(), modulus)
    for curve in CURVES.values():
        if algorithm == EC_PUBLIC_KEY + curve.identifier and bits[1:2] == UNCOMPRESSED:
            return EccKey(curve, bits[2 : 2 + curve.size], bits[2 + curve.size :])
    return None


def is_taken(key):
    """Whether signatures by the key are verified here: it has RSA with whole bytes of a size within limits, or is on a curve that is not too long."""
    return LEAST_BITS <= key.bits <= MOST_BITS and key.bits % 8 == 0 if key.type == "rsa" else key.bits <= MOST_CURVE_BITS


def read_pem(text):
    """The key of a PEM, which is to the byte what `key --print pem` shows of it."""
    key, match = None, PEM.fullmatch(text)
    if match:
        with suppress(ValueError):
            key = key_in_info(b64decode(match[1].replace(b"\n", b""), validate=True))
    refuse_unless(key and is_taken(key) and pem_of(key).encode() == text, "OtherPem")
    return SigningKey(key, None, None)


def read_signing_key(text):
    """The key that a text is: PEM, or the public area of an attestation key."""
    if text.startswith(ANY_PEM):
        return read_pem(text)
    area = read_key(text)
    refuse_unless(is_taken(area.key), "OtherKey")
    return SigningKey(area.key, area.scheme, area.scheme_hash)


# ---- signatures


def plain_integer(data):
    """The bytes of a number above zero, spelled in as few bytes as can be, and what follows it; or ValueError."""
    content, rest = read_der(data, INTEGER)
    if data[1] > 0x7F or not content or content[0] > 0x7F or (content[0] == 0 and content[1:2] <= b"\x7f"):
        raise ValueError
    return content.lstrip(b"\0"), rest


def plain_numbers(data):
    """The numbers of a signature by ECDSA in DER of at most 127 bytes, or None."""
    with suppress(ValueError):
        content, after = read_der(data, SEQUENCE)
        r, rest = plain_integer(content)
        s, more = plain_integer(rest)
        if data[1] <= 0x7F and not after and not more:
            return r, s
    return None


def read_tpm_signature(data):
    """The scheme, the hash and the numbers of a TPMT_SIGNATURE."""
    fields = Fields(data, "big")
    try:
        scheme = SCHEMES.get(fields.number(2))
        refuse_unless(scheme, "UnknownScheme")
        hash = BY_IDENTIFIER.get(fields.number(2))
        refuse_unless(hash, "UnknownHash")
        numbers = [fields.with_length(2) for _ in range(2 if scheme == "ecdsa" else 1)]
    except Cut:
        raise signature_fault("Truncated") from None
    refuse_unless(not fields.left(), "Trailing")
    return scheme, hash, numbers


def plain_of(key, data):
    """The numbers of a signature, if it is these alone, or None."""
    if key.type == "ecc":
        return plain_numbers(data)
    return (data,) if len(data) == (key.bits + 7) // 8 else None


def check_signed(text, message, data):
    """Refuses a message that is not signed by the key that a text is."""
    signing = read_signing_key(text)
    schemes, hashes, numbers = signing.schemes, signing.hashes, plain_of(signing.key, data)
    if numbers is None:
        scheme, hash, numbers = read_tpm_signature(data)
        refuse_unless(scheme in schemes, "OtherScheme")
        refuse_unless(hash is not SHA1 and hash in hashes, "OtherHash")
        schemes, hashes = [scheme], [hash]
    refuse_unless(any(signing.is_signed(message, scheme, hash, numbers) for scheme in schemes for hash in hashes), "NotSigned")
