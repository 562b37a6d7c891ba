"""Keys of a TPM: their public areas (TPM 2.0 Library, part 2, 'TPM2B_PUBLIC' and 'TPMT_PUBLIC'), their names, and what they lack to be an
attestation key, or an endorsement key. Whose TPM it is, is not looked at here, nor whether a point is on its curve or a modulus a product of primes."""

from base64 import b64encode
from typing import NamedTuple, Optional

from .faults import key_fault
from .fields import Cut, Fields
from .registers import BY_IDENTIFIER, SHA1, Algorithm

NULL = 0x0010
AES = 0x0006
RSA = 0x0001
ECC = 0x0023
# The schemes of each type by their TPM_ALG_ID: the name in texts, and whether a hash follows.
SCHEMES = {
    RSA: {NULL: ("none", False), 0x0015: ("rsaes", False), 0x0014: ("rsassa", True), 0x0016: ("rsapss", True), 0x0017: ("oaep", True)},
    ECC: {NULL: ("none", False), 0x0018: ("ecdsa", True), 0x0019: ("ecdh", True)},
}
TYPES = [kind.to_bytes(2, "big") for kind in SCHEMES]
SIGNING = ("rsassa", "rsapss", "ecdsa")
EXPONENT = 65537
LEAST_BITS = 2048
# Bits of TPMA_OBJECT.
FIXED_TPM, FIXED_PARENT, SENSITIVE_DATA_ORIGIN, RESTRICTED, DECRYPT, SIGN = 1, 4, 5, 16, 17, 18
# Object identifiers as DER: rsaEncryption (RFC 8017, appendix A.1), id-ecPublicKey (RFC 5480, section 2.1.1).
RSA_ENCRYPTION = bytes.fromhex("06092a864886f70d010101")
EC_PUBLIC_KEY = bytes.fromhex("06072a8648ce3d0201")
# Of DER: its tags, and NULL.
INTEGER, BIT_STRING, SEQUENCE = b"\x02", b"\x03", b"\x30"
NO_PARAMETERS = bytes.fromhex("0500")
PEM_BEGIN, PEM_END = "-----BEGIN PUBLIC KEY-----", "-----END PUBLIC KEY-----"
PEM_LINE = 64


class Curve(NamedTuple):
    """A curve: its bits, and its object identifier as DER (RFC 5480, section 2.1.1.1)."""

    bits: int
    identifier: bytes

    @property
    def size(self):
        """How many bytes a coordinate has."""
        return (self.bits + 7) // 8


CURVES = {
    0x0003: Curve(256, bytes.fromhex("06082a8648ce3d030107")),
    0x0004: Curve(384, bytes.fromhex("06052b81040022")),
    0x0005: Curve(521, bytes.fromhex("06052b81040023")),
}


def der(tag, *parts):
    """A value of DER: its tag, its length in as few bytes as can be, and its parts (X.690, sections 8.1 and 10.1)."""
    data = b"".join(parts)
    if len(data) < 128:
        return tag + bytes([len(data)]) + data
    length = len(data).to_bytes((len(data).bit_length() + 7) // 8, "big")
    return tag + bytes([0x80 | len(length)]) + length + data


def der_integer(value):
    """An INTEGER that is not negative: its first bit is 0."""
    return der(INTEGER, value.to_bytes(value.bit_length() // 8 + 1, "big"))


class RsaKey(NamedTuple):
    bits: int
    modulus: int

    @property
    def type(self):
        return "rsa"

    def public_key_info(self):
        key = der(SEQUENCE, der_integer(self.modulus), der_integer(EXPONENT))
        return der(SEQUENCE, der(SEQUENCE, RSA_ENCRYPTION, NO_PARAMETERS), der(BIT_STRING, b"\0", key))


class EccKey(NamedTuple):
    curve: Curve
    x: bytes
    y: bytes

    @property
    def type(self):
        return "ecc"

    @property
    def bits(self):
        return self.curve.bits

    def public_key_info(self):
        point = b"\x04" + self.x.rjust(self.curve.size, b"\0") + self.y.rjust(self.curve.size, b"\0")
        return der(SEQUENCE, der(SEQUENCE, EC_PUBLIC_KEY, self.curve.identifier), der(BIT_STRING, b"\0", point))


def pem_of(key):
    """The key as PEM (RFC 7468, section 13)."""
    text = b64encode(key.public_key_info()).decode()
    lines = [text[place : place + PEM_LINE] for place in range(0, len(text), PEM_LINE)]
    return "".join(f"{line}\n" for line in [PEM_BEGIN, *lines, PEM_END])


class Area(NamedTuple):
    """What a public area states: its name, which begins with the number of its hash, its attributes, the scheme, its hash or None, and the key."""

    name_hash: Algorithm
    name: bytes
    attributes: int
    scheme: str
    scheme_hash: Optional[Algorithm]
    key: RsaKey | EccKey

    def has(self, attribute):
        return self.attributes >> attribute & 1 == 1

    def text(self, part="all"):
        name, pem = f"name {self.name.hex()}\n", pem_of(self.key)
        if part != "all":
            return {"name": f"{self.name.hex()}\n", "pem": pem}[part]
        hashed = f" {self.scheme_hash.name}" if self.scheme_hash else ""
        return f"{name}key {self.key.type} {self.key.bits}\nscheme {self.scheme}{hashed}\n{pem}"

    def as_json(self, part="all"):
        """The key as JSON, or its name or its PEM alone."""
        hashed = {"hash": self.scheme_hash.name} if self.scheme_hash else {}
        whole = {"name": self.name.hex(), "type": self.key.type, "bits": self.key.bits, "scheme": self.scheme, **hashed, "pem": pem_of(self.key)}
        return whole if part == "all" else {part: whole[part]}


def refuse_unless(holds, fault):
    if not holds:
        raise key_fault(fault)


def read_hash(fields):
    algorithm = BY_IDENTIFIER.get(fields.number(2))
    refuse_unless(algorithm, "UnknownHash")
    return algorithm


def skip_symmetric(fields):
    """Goes past the symmetric algorithm, which is none, or AES with its bits and its mode."""
    algorithm = fields.number(2)
    refuse_unless(algorithm in (NULL, AES), "OtherSymmetric")
    if algorithm == AES:
        fields.take(4)


def read_scheme(fields, schemes):
    """The scheme's name, and its hash, or None."""
    scheme = schemes.get(fields.number(2))
    refuse_unless(scheme, "UnknownScheme")
    name, has_hash = scheme
    return name, read_hash(fields) if has_hash else None


def read_rsa(fields):
    bits = fields.number(2)
    refuse_unless(fields.number() in (0, EXPONENT), "OtherExponent")
    modulus = fields.with_length(2)
    refuse_unless(bits > 0 and len(modulus) * 8 == bits and modulus[0] >= 128, "KeySize")
    return RsaKey(bits, int.from_bytes(modulus, "big"))


def read_ecc(fields):
    curve = CURVES.get(fields.number(2))
    refuse_unless(curve, "UnknownCurve")
    refuse_unless(fields.number(2) == NULL, "KeyDerivation")
    x = fields.with_length(2)
    refuse_unless(len(x) <= curve.size, "KeySize")
    y = fields.with_length(2)
    refuse_unless(len(y) <= curve.size, "KeySize")
    return EccKey(curve, x, y)


def read_fields(data):
    """What an area of these bytes states, from left to right."""
    fields = Fields(data, "big")
    kind = fields.number(2)
    refuse_unless(kind in SCHEMES, "OtherType")
    name_hash, attributes = read_hash(fields), fields.number()
    fields.with_length(2)
    skip_symmetric(fields)
    scheme, scheme_hash = read_scheme(fields, SCHEMES[kind])
    key = read_rsa(fields) if kind == RSA else read_ecc(fields)
    refuse_unless(not fields.left(), "Trailing")
    name = name_hash.identifier.to_bytes(2, "big") + name_hash.hash(data)
    return Area(name_hash, name, attributes, scheme, scheme_hash, key)


def is_bare(data):
    """Whether an area has no size before it: a type comes first, and none after it. (Behind a size the type is the second number, where a bare area
    has that of a hash, which is no type's.)"""
    return data[:2] in TYPES and data[2:4] not in TYPES


def framed(data):
    """The bytes of an area that has its size before it and nothing after it."""
    frame = Fields(data, "big")
    area = frame.with_length(2)
    refuse_unless(not frame.left(), "Trailing")
    return area


def read_area(data):
    """What a public area states, with its size before it or bare, and nothing after it; or its first fault."""
    try:
        return read_fields(data if is_bare(data) else framed(data))
    except Cut:
        raise key_fault("Truncated") from None


def require_of_its_tpm(area):
    """Refuses a key that is not its TPM's alone, or that does not keep to what the TPM made."""
    refuse_unless(area.name_hash is not SHA1, "WeakName")
    refuse_unless(area.has(FIXED_TPM), "LeavesTpm")
    refuse_unless(area.has(FIXED_PARENT), "LeavesParent")
    refuse_unless(area.has(SENSITIVE_DATA_ORIGIN), "NotMadeByTpm")
    refuse_unless(area.has(RESTRICTED), "Unrestricted")
    refuse_unless(area.key.type != "rsa" or area.key.bits >= LEAST_BITS, "ShortKey")


def require_attesting(area):
    """Refuses a key that does not sign, or not alone, or by a scheme that is not fixed, or is weak."""
    refuse_unless(area.has(SIGN), "DoesNotSign")
    refuse_unless(not area.has(DECRYPT), "Decrypts")
    refuse_unless(area.scheme in SIGNING, "NoSigningScheme")
    refuse_unless(area.scheme_hash is not SHA1, "WeakHash")


def require_endorsing(area):
    refuse_unless(not area.has(SIGN), "Signs")
    refuse_unless(area.has(DECRYPT), "DoesNotDecrypt")


def read_key(data, is_endorsement=False):
    """The public area of an attestation key, or of an endorsement key; or the first fault."""
    area = read_area(data)
    require_of_its_tpm(area)
    if is_endorsement:
        require_endorsing(area)
    else:
        require_attesting(area)
    return area
