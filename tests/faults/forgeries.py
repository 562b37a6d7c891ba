"""Questions on signatures: valid ones by keys that are made here, and forgeries of each kind that is known, such as Project Wycheproof collects. The
numbers are made anew each time. A question has its line for the program, and asks Python's cryptography."""

import hashlib
from functools import lru_cache
from typing import NamedTuple

from areas import CURVES
from cryptography.exceptions import InvalidSignature
from cryptography.hazmat.primitives import hashes
from cryptography.hazmat.primitives.asymmetric import ec, padding, rsa, utils

EXPONENT = 65537
HASHES = {"sha256": hashes.SHA256(), "sha384": hashes.SHA384(), "sha512": hashes.SHA512()}
# The object identifier of a hash (RFC 8017, appendix B.1), by the last byte for those of NIST.
NIST = bytes.fromhex("06096086480165030402")
OIDS = {"sha256": NIST + b"\1", "sha384": NIST + b"\2", "sha512": NIST + b"\3", "sha224": NIST + b"\4", "sha512-256": NIST + b"\6",
        "sha3-256": NIST + b"\x08", "sha1": bytes.fromhex("06052b0e03021a"), "md5": bytes.fromhex("06082a864886f70d0205")}
NULL, TRAILER, SEPARATOR, ZEROS = b"\5\0", b"\xbc", b"\1", bytes(8)
ORDERS = (0xFFFFFFFF00000000FFFFFFFFFFFFFFFFBCE6FAADA7179E84F3B9CAC2FC632551,
          0xFFFFFFFFFFFFFFFFFFFFFFFFFFFFFFFFFFFFFFFFFFFFFFFFC7634D81F4372DDF581A0DB248B0A77AECEC196ACCC52973)


def spelled(data):
    return data.hex() or "-"


def number_of(data):
    return int.from_bytes(data, "big")


@lru_cache(256)
def rsa_key(modulus):
    return rsa.RSAPublicNumbers(EXPONENT, modulus).public_key()


@lru_cache(256)
def curve_key(curve, x, y):
    return ec.EllipticCurvePublicNumbers(x, y, GROUPS[curve].curve).public_key()


def is_verified(verify, *given):
    """Whether cryptography takes a signature."""
    try:
        verify(*given)
    except (InvalidSignature, ValueError):
        return False
    return True


class RsaQuestion(NamedTuple):
    """A question on a signature by an RSA key."""

    scheme: str
    hash: str
    modulus: bytes
    message: bytes
    signature: bytes
    PARTS = ("modulus", "message", "signature")

    @property
    def line(self):
        return " ".join([self.scheme, self.hash, *(spelled(getattr(self, part)) for part in self.PARTS)])

    def is_taken(self):
        """Whether the modulus has a size that is taken (256 to 512 bytes, without zeros before them, for PSS with the first bit), and the signature
        as many bytes. cryptography takes other sizes, and for PSS shorter signatures, which RFC 8017, section 8.1.2, step 1 refuses."""
        return 256 <= len(self.modulus) == len(self.signature) <= 512 and self.modulus[0] >= (0x80 if self.scheme == "rsapss" else 1)

    def is_verified(self):
        mode = padding.PSS(padding.MGF1(HASHES[self.hash]), padding.PSS.AUTO) if self.scheme == "rsapss" else padding.PKCS1v15()
        return is_verified(lambda: rsa_key(number_of(self.modulus)).verify(self.signature, self.message, mode, HASHES[self.hash]))


class EcdsaQuestion(NamedTuple):
    """A question on a signature by a key on a curve."""

    curve: str
    hash: str
    x: bytes
    y: bytes
    message: bytes
    r: bytes
    s: bytes
    PARTS = ("x", "y", "message", "r", "s")

    @property
    def line(self):
        return " ".join(["ecdsa", self.curve, self.hash, *(spelled(getattr(self, part)) for part in self.PARTS)])

    def is_taken(self):
        """Whether the coordinates are below the prime."""
        return max(number_of(self.x), number_of(self.y)) < GROUPS[self.curve].p

    def is_verified(self):
        numbers, hash = (number_of(self.r), number_of(self.s)), ec.ECDSA(HASHES[self.hash])
        return is_verified(lambda: curve_key(self.curve, number_of(self.x), number_of(self.y)).verify(utils.encode_dss_signature(*numbers),
                                                                                                    self.message, hash))


class RsaKey:
    """An RSA key of so many bits, which signs any encoded message as it is."""

    def __init__(self, bits):
        self.private = rsa.generate_private_key(EXPONENT, bits)
        self.numbers = self.private.private_numbers()
        self.n, self.size = self.numbers.public_numbers.n, -(-bits // 8)
        self.modulus = self.n.to_bytes(self.size, "big")

    def signed(self, encoded):
        """The number whose power is the encoded message."""
        p, q, value = self.numbers.p, self.numbers.q, number_of(encoded)
        if len(encoded) != self.size or value >= self.n:
            raise ValueError("no such number")
        one, two = pow(value, self.numbers.dmp1, p), pow(value, self.numbers.dmq1, q)
        return (two + (one - two) * self.numbers.iqmp % p * q).to_bytes(self.size, "big")

    def asked(self, scheme, hash, message, signature):
        return RsaQuestion(scheme, hash, self.modulus, message, signature)

    def valid(self, scheme, hash, message):
        """A signature as cryptography makes it."""
        mode = padding.PSS(padding.MGF1(HASHES[hash]), padding.PSS.DIGEST_LENGTH) if scheme == "rsapss" else padding.PKCS1v15()
        return self.asked(scheme, hash, message, self.private.sign(message, mode, HASHES[hash]))


def der(tag, *parts):
    """An element of DER, of fewer than 128 bytes."""
    body = b"".join(parts)
    return bytes([tag, len(body)]) + body


def digest_info(algorithm, digest, null=NULL, more=b""):
    return der(0x30, der(0x30, OIDS[algorithm], null), der(4, digest), more)


def padded(size, info, kind=b"\0\1", byte=b"\xff", separator=b"\0"):
    """What RSASSA-PKCS1-v1_5 encodes (RFC 8017, section 9.2), or something like it."""
    return kind + byte * (size - len(kind + separator + info)) + separator + info


def pkcs1_forgeries(chance, size, hash, message):
    """Titles, each with encoded messages that are none."""
    digest = hashlib.new(hash, message).digest()
    info = digest_info(hash, digest)
    good, digests = padded(size, info), [hashlib.new(other, message).digest() for other in HASHES if other != hash]
    yield "another type of block", [padded(size, info, bytes([0, kind])) for kind in (0, 2, 3, 0x81, 255)]
    yield "a first byte that is not 0", [padded(size, info, bytes([first, 1])) for first in (1, 2, 0x40)]
    yield "short padding, and bytes after the digest", [
        start + fill(size - len(start)) for count in (0, 1, 7, 8, 9, 64) for start in [b"\0\1" + b"\xff" * count + b"\0" + info]
        for fill in (bytes, chance.randbytes)]
    yield "short padding, and bytes before it", [bytes(count) + padded(size - count, info) for count in (1, 2, 100)]
    yield "bytes after the digest", [padded(size, info + fill) for fill in (b"\0", b"\xff", bytes(8), NULL, info)]
    yield "other bytes of padding", [good[:place] + bytes([byte]) + good[place + 1 :]
                                     for place in (2, 3, size // 3, size - len(info) - 2) for byte in (0xFE, 0, 0x7F)]
    yield "padding of zeros", [padded(size, info, byte=b"\0")]
    yield "no separator, or another one", [padded(size, info, separator=separator) for separator in (b"", b"\1", b"\xff", b"\0\0")]
    yield "no NULL", [padded(size, digest_info(hash, digest, null=b""))]
    yield "another parameter than NULL", [padded(size, digest_info(hash, digest, null=null))
                                          for null in (b"\5\1\0", b"\5\x81\0", b"\4\0", b"\6\0", NULL + NULL, b"\1\1\xff")]
    yield "extra bytes in the DER", [padded(size, info) for info in (
        digest_info(hash, digest, more=NULL), digest_info(hash, digest, more=b"\0"), digest_info(hash, digest + b"\0"),
        digest_info(hash, b"\0" + digest), der(0x30, info), der(0x30, NULL, info[2:]), der(0x30, info[2:], b"\4\0"))]
    yield "lengths in long form", [padded(size, info) for info in (
        b"\x30\x81" + info[1:], b"\x30\x82\0" + info[1:], der(0x30, info[2 : -len(digest) - 1], b"\x81", info[-len(digest) - 1 :]),
        b"\x30\x80" + info[2:] + b"\0\0")]
    yield "other tags", [padded(size, bytes([tag]) + info[1:]) for tag in (0x10, 0x31, 0x70)]
    yield "another hash's identifier", [padded(size, digest_info(other, digest)) for other in OIDS if other != hash]
    yield "another hash's digest", [padded(size, digest_info(hash, other)) for other in digests]
    yield "another hash", [padded(size, digest_info(other, hashlib.new(other, message).digest())) for other in HASHES if other != hash]
    yield "a digest that is not whole", [padded(size, digest_info(hash, digest[:-1])), padded(size, digest_info(hash, digest[1:])),
                                         padded(size, digest_info(hash, b"")), padded(size, info[:-1]), padded(size, info[: -len(digest)])]
    yield "the digest alone", [padded(size, digest), padded(size, der(4, digest)), digest.rjust(size, b"\0")]
    yield "another message", [padded(size, digest_info(hash, hashlib.new(hash, message + b"\0").digest()))]


def masked(block, hash, seed, first=0, order="big"):
    """The bytes with the mask of MGF1 (RFC 8017, appendix B.2.1)."""
    size = hashlib.new(hash).digest_size
    mask = b"".join(hashlib.new(hash, seed + count.to_bytes(4, order)).digest() for count in range(first, first + len(block) // size + 1))
    return bytes(one ^ two for one, two in zip(block, mask))


def encoded_pss(size, hash, message, salt, *, zeros=ZEROS, digest=None, salted=None, block=None, mask=masked, mask_hash=None, first_bit=0,
                trailer=TRAILER):
    """What RSASSA-PSS encodes (RFC 8017, section 9.1.1), for a modulus whose bits fill so many bytes, or something like it."""
    digest = hashlib.new(hash, message).digest() if digest is None else digest
    salted = hashlib.new(hash, zeros + digest + salt).digest() if salted is None else salted
    length = size - len(salted) - len(trailer)
    block = (SEPARATOR + salt).rjust(length, b"\0") if block is None else block(length)
    hidden = mask(block, mask_hash or hash, salted)
    return bytes([hidden[0] & 0x7F | first_bit]) + hidden[1:] + salted + trailer


def pss_forgeries(chance, key, hash, message):
    """Titles, each with encoded messages that are none."""
    size, length = key.size, hashlib.new(hash).digest_size
    salt, others = chance.randbytes(length), [other for other in HASHES if other != hash]

    def made(salt=salt, **changes):
        return encoded_pss(size, hash, message, salt, **changes)

    def with_first_bit():
        while True:  # (until the number is below the modulus)
            encoded = made(chance.randbytes(length), first_bit=0x80)
            if number_of(encoded) < key.n:
                return encoded

    yield "another trailer", [made(trailer=bytes([0xBC ^ 1 << bit])) for bit in range(8)]
    yield "the trailer of a named hash", [made(trailer=b"\x34\xcc"), made(trailer=b""), made(trailer=b"\xbc\xbc")]
    yield "the first bit is set", [with_first_bit() for _ in range(4)]
    yield "another separator", [made(block=lambda size, byte=byte: (bytes([byte]) + salt).rjust(size, b"\0")) for byte in (2, 3, 0x80, 0xFF)]
    yield "no separator", [made(block=lambda size: (b"\0" + b"\2" + salt[1:]).rjust(size, b"\0")), made(b"", block=bytes),
                           made(block=lambda size: bytes(size - length) + b"\2" + salt[1:])]
    yield "a byte before the separator", [made(block=lambda size, byte=byte, place=place: bytes(place) + bytes([byte]) + (SEPARATOR + salt).rjust(
        size - place - 1, b"\0")) for byte in (1, 2, 0x40) for place in (0, 1, 100, size - 2 * length - 4)]
    yield "a salt at another place", [made(block=lambda size, by=by: (SEPARATOR + salt + bytes(by)).rjust(size, b"\0")) for by in (1, 2, length)]
    yield "another salt", [made(block=lambda size, other=other: (SEPARATOR + other).rjust(size, b"\0"))
                           for other in (b"", salt[:-1], salt[1:], salt + b"\0", b"\0" + salt, bytes(length))]
    yield "another hash in MGF1", [made(mask_hash=other) for other in (*others, "sha1", "sha224")]
    yield "another counter in MGF1", [made(mask=lambda *given: masked(*given, first=1)), made(mask=lambda *given: masked(*given, order="little"))]
    yield "no mask", [made(mask=lambda block, hash, seed: block)]
    yield "other bytes before the digest", [made(zeros=zeros) for zeros in (b"", bytes(7), bytes(9), bytes([0] * 7 + [1]))]
    yield "another hash's digest", [made(digest=hashlib.new(other, message).digest()) for other in others]
    yield "another message", [made(digest=hashlib.new(hash, message + b"\0").digest()), made(digest=b""), made(digest=message)]
    digest = hashlib.new(hash, message).digest()
    yield "another digest with the salt", [made(salted=salted) for salted in (
        bytes(length), digest, *(hashlib.new(hash, joined).digest() for joined in (ZEROS + digest, ZEROS + salt + digest, digest + salt + ZEROS)))]
    yield "another hash", [encoded_pss(size, other, message, salt) for other in others]


def rsa_forgeries(chance, key, scheme, hash, message):
    """Titles, each with questions on forged signatures."""
    made = pkcs1_forgeries(chance, key.size, hash, message) if scheme == "rsassa" else pss_forgeries(chance, key, hash, message)
    for title, encoded in made:
        yield title, [key.asked(scheme, hash, message, key.signed(block)) for block in encoded]
    yield from number_forgeries(key, scheme, hash, message)


def number_forgeries(key, scheme, hash, message):
    """The same for other numbers than that of a valid signature."""
    n, size, valid = key.n, key.size, key.valid(scheme, hash, message)
    of_a_short_one = with_zero(key, scheme, hash, message)

    def asked(signature):
        return valid._replace(signature=signature if isinstance(signature, bytes) else signature.to_bytes(size, "big"))

    s, small = number_of(valid.signature), number_of(of_a_short_one.signature)
    yield "a number at a bound", [asked(number) for number in (0, 1, 2, n - 1, n, n + 1, 256**size - 1)]
    yield "the modulus added", [of_a_short_one._replace(signature=(small + n).to_bytes(size, "big")) if small + n < 256**size else asked(n),
                                asked((s + n).to_bytes(size + 1, "big"))]
    yield "the negative number", [asked(n - s)]
    yield "zeros before it that are cut off", [of_a_short_one._replace(signature=of_a_short_one.signature[1:]), asked(valid.signature[1:])]
    yield "bytes added", [asked(b"\0" + valid.signature), asked(valid.signature + b"\0"), asked(valid.signature * 2)]
    yield "no number", [asked(b""), asked(valid.signature[:-1]), asked(bytes(size - 1)), asked(b"\0")]
    yield "bytes in another order", [asked(valid.signature[::-1])]
    yield "the other scheme", [key.valid("rsapss" if scheme == "rsassa" else "rsassa", hash, message)._replace(scheme=scheme)]
    yield "another hash is asked for", [valid._replace(hash=other) for other in HASHES if other != hash]
    yield "another message is asked for", [valid._replace(message=other) for other in (b"", message[:-1], message + b"\0", b"\0" + message)]
    yield "another modulus", [valid._replace(modulus=(n + by).to_bytes(size, "big")) for by in (-2, -1, 1, 2)]


def with_zero(key, scheme, hash, message):
    """A valid signature whose first byte is 0."""
    for count in range(100_000):
        valid = key.valid(scheme, hash, message + count.to_bytes(4, "big"))
        if valid.signature[0] == 0:
            return valid
    raise ValueError("no signature begins with 0")


class Group(NamedTuple):
    """The points of a curve (SP 800-186, section 3.2.1)."""

    name: str
    curve: ec.EllipticCurve
    size: int
    p: int
    b: int
    n: int

    def times(self, factor):
        """A multiple of the base point, as cryptography has it."""
        numbers = ec.derive_private_key(factor, self.curve).public_key().public_numbers()
        return numbers.x, numbers.y

    def sum(self, one, other):
        if one is None or other is None:
            return one or other
        (x, y), (x2, y2), p = one, other, self.p
        if x == x2 and (y + y2) % p == 0:
            return None
        slope = (3 * x * x - 3) * pow(2 * y, -1, p) if x == x2 else (y2 - y) * pow(x2 - x, -1, p)
        x3 = (slope * slope - x - x2) % p
        return x3, (slope * (x - x3) - y) % p

    def multiple(self, factor, point):
        result = None
        for bit in bin(factor)[2:]:
            result = self.sum(result, result)
            result = self.sum(result, point) if bit == "1" else result
        return result

    def digest(self, hash, message):
        return number_of(hashlib.new(hash, message).digest()[: self.size])

    def asked(self, hash, key, message, r, s):
        """A question whose numbers have as many bytes as the curve, or more if they need them."""
        numbers = [value.to_bytes(max(self.size, -(-value.bit_length() // 8)), "big") for value in (*key, r, s)]
        return EcdsaQuestion(self.name, hash, *numbers[:2], message, *numbers[2:])

    def signed(self, hash, message, d, k):
        """The signature by the private key d with the secret number k."""
        r = self.times(k)[0] % self.n
        return self.asked(hash, self.times(d), message, r, (self.digest(hash, message) + r * d) * pow(k, -1, self.n) % self.n)

    def recovered(self, hash, message, point, s):
        """A key by which the message has a signature with this number, and with that of a point."""
        r = point[0] % self.n
        by_base = self.times(self.digest(hash, message) % self.n)
        difference = self.sum(self.multiple(s, point), (by_base[0], -by_base[1] % self.p))
        return self.asked(hash, self.multiple(pow(r, -1, self.n), difference), message, r, s)


GROUPS = {name: Group(name, curve, of.size, of.p, of.b, n)
          for name, curve, of, n in zip(("p256", "p384"), (ec.SECP256R1(), ec.SECP384R1()), CURVES, ORDERS)}


def rare_signatures(chance, group, hash, message):
    """Titles, each with questions on valid signatures of rare numbers."""
    n, size = group.n, group.size
    e, d, k = group.digest(hash, message), chance.randrange(3, n), chance.randrange(3, n)
    valid, r = group.signed(hash, message, d, k), group.times(k)[0] % n
    yield "the negative second number", [valid._replace(s=(n - number_of(valid.s)).to_bytes(size, "big"))]
    yield "zeros before a number", [valid._replace(**{part: bytes(count) + getattr(valid, part)})
                                    for part in ("x", "y", "r", "s") for count in (1, 40)]
    yield "no zeros before a number", [shortest(chance, group, hash, message)]
    yield "the point of 1, 2 and -1", [group.signed(hash, message, d, k) for k in (1, 2, n - 1)]
    yield "the key of 1, 2, 1/2, -1 and -2", [group.signed(hash, message, d, k) for d in (1, 2, (n + 1) // 2, n - 1, n - 2)]
    yield "the second number is 1, 2 or -1", [group.signed(hash, message, (s * k - e) * pow(r, -1, n) % n, k) for s in (1, 2, n - 1)]
    yield "the sum of equal points", [group.signed(hash, message, e * pow(r, -1, n) % n, k)]
    yield "a point whose x is the order or more", [group.recovered(hash, message, high_point(chance, group), k)]
    yield "a small first number", [group.recovered(hash, message, of_curve(group).point(chance.randrange(2**32)), k)]


def of_curve(group):
    """The curve, which finds points from their x."""
    return next(curve for curve in CURVES if curve.p == group.p)


def high_point(chance, group):
    """A point whose x is the order or more."""
    while True:
        x, y = of_curve(group).point(chance.randrange(group.n, group.p - 1000))
        if x >= group.n:
            return x, y


def shortest(chance, group, hash, message):
    """A signature whose first number has a zero before it, without that."""
    while True:
        k = chance.randrange(1, group.n)
        if group.times(k)[0] % group.n < 256 ** (group.size - 1):
            valid = group.signed(hash, message, chance.randrange(1, group.n), k)
            return valid._replace(**{part: getattr(valid, part).lstrip(b"\0") for part in ("x", "y", "r", "s")})


def ecdsa_forgeries(chance, group, hash, message):
    """Titles, each with questions on forged signatures, and on what is no key."""
    n, p, size = group.n, group.p, group.size
    e, d, k = group.digest(hash, message), chance.randrange(3, n), chance.randrange(3, n)
    key, valid, high = group.times(d), group.signed(hash, message, d, k), group.recovered(hash, message, high_point(chance, group), k)
    (x, y), r, s = key, number_of(valid.r), number_of(valid.s)
    other = GROUPS["p384" if group.name == "p256" else "p256"]

    def asked(*pairs):
        return [group.asked(hash, key, message, *pair) for pair in pairs]

    def by(*keys):
        return [group.asked(hash, key, message, r, s) for key in keys]

    yield "a first number at a bound", asked(*((number, s) for number in (0, 1, n - 1, n, n + 1, p, p + 1, 256**size - 1)))
    yield "a second number at a bound", asked(*((r, number) for number in (0, n, n + 1, p, 256**size - 1)))
    yield "both numbers at a bound", asked((0, 0), (0, 1), (1, 0), (1, 1), (n, n), (0, n), (n, 0), (n - 1, n - 1))
    yield "no number", [valid._replace(r=b""), valid._replace(s=b""), valid._replace(r=b"", s=b"")]
    yield "the order added", asked((r + n, s), (r, s + n), (r + n, s + n), (r + 2 * n, s), (r, s + 256**size * n))
    yield "a coordinate that is not reduced", [high._replace(r=(number_of(high.r) + n).to_bytes(size, "big"))]
    yield "the negative first number", asked((n - r, s), (n - r, n - s))
    yield "numbers exchanged, or beside them", asked((s, r), (r, s + 1), (r + 1, s), (r, pow(s, -1, n)))
    yield "the sum is infinite", asked((-e * pow(d, -1, n) % n, chance.randrange(1, n)))
    yield "another hash is asked for", [valid._replace(hash=name) for name in HASHES if name != hash]
    yield "another message is asked for", [valid._replace(message=message) for message in (b"", message + b"\0", message[:-1])]
    yield "another number than the digest's", [of_another_number(chance, group, hash, message, d)]
    yield "points off the curve", by((x, y + 1), (x + 1, y), (y, x), (0, 0), (0, 1), (1, 0), (x, 0), (0, y), (p - 1, p - 1), (x, p - 1 - y))
    yield "the negative key, and twice the key", by((x, p - y), group.sum(key, key))
    yield "points of order 2 off the curve", [of_order_two(chance, group, hash, message, x) for x in (0, 1, x, p - 1)]
    yield "infinity", [valid._replace(x=b"", y=b""), *by((0, 0))]
    yield "a key of the other curve", by(other.times(d % other.n))
    yield "coordinates above the prime", by((x + p, y), (x, y + p), (x + p, y + p), (p, y), (x, p), (x + 256**size * p, y))
    yield "the other curve", [valid._replace(curve=other.name)]


def of_order_two(chance, group, hash, message, x):
    """A signature by a point whose even multiples are infinite, such as none on the curve is: what is found is a multiple of the base point alone."""
    e = group.digest(hash, message) % group.n
    while True:
        k = chance.randrange(1, group.n)
        r = group.times(k)[0] % group.n
        if r * k * pow(e, -1, group.n) % group.n % 2 == 0:
            return group.asked(hash, (x, 0), message, r, e * pow(k, -1, group.n) % group.n)


def of_another_number(chance, group, hash, message, d):
    """A signature of the number that all bytes of the digest spell, if they are more than the order has, or of the bytes in another order."""
    digest = hashlib.new(hash, message).digest()
    number = number_of(digest) if len(digest) > group.size else number_of(digest[::-1])
    k = chance.randrange(1, group.n)
    r = group.times(k)[0] % group.n
    return group.asked(hash, group.times(d), message, r, (number + r * d) * pow(k, -1, group.n) % group.n)
