"""Public areas of keys: those of the samples and whole ones of other forms and sizes, as lists of fields, which are then changed at random, with
their size before them or bare."""

from typing import NamedTuple

from harness import ROOT
from reference.fields import Fields
from reference.keys import AES, ECC, EXPONENT, NULL, RSA, SCHEMES
from reference.registers import ALGORITHMS

KEYS = ROOT / "samples/keys"
ATTESTING, ENDORSING = 0x00050072, 0x000300B2
# The bits of the attributes by which a key is refused.
TOLD_BITS = (1, 4, 5, 16, 17, 18)
HASHES = [algorithm.identifier for algorithm in ALGORITHMS]
RSA_BITS = (*range(2048, 2128, 8), 3072, 4096, 2384, 2392)
SMALL_BITS = (8, 16, 512, 1024, 2032, 2040)
# Numbers of two bytes, and of four, of which one may take the place of a field.
SHORT_NUMBERS = (*range(0x28), 32, 33, 47, 48, 49, 65, 66, 67, 127, 128, 255, 256, 257, 512, 2040, 2047, 2048, 2049, 2056, 32767, 32768, 65535)
LONG_NUMBERS = (0, 1, 3, 65535, 65536, EXPONENT, 65539, ATTESTING, ENDORSING, (1 << 31) - 1, 1 << 31, (1 << 32) - 1)


class Curve(NamedTuple):
    """A curve y^2 = x^3 - 3 x + b over the numbers below a prime p, which is 3 more than a multiple of 4 (SP 800-186, section 3.2.1)."""

    identifier: int
    size: int
    p: int
    b: int

    def point(self, x):
        """A point whose x is the first from this one on."""
        while True:
            square = (x**3 - 3 * x + self.b) % self.p
            y = pow(square, (self.p + 1) // 4, self.p)
            if y * y % self.p == square:
                return x, y
            x = (x + 1) % self.p


CURVES = (
    Curve(3, 32, 2**256 - 2**224 + 2**192 + 2**96 - 1, 0x5AC635D8AA3A93E7B3EBBD55769886BC651D06B0CC53B0F63BCE3C3E27D2604B),
    Curve(4, 48, 2**384 - 2**128 - 2**96 + 2**32 - 1,
          0xB3312FA7E23EE7E4988E056BE3F82D19181D9C6EFE8141120314088F5013875AC656398D8A2ED19D2A85C8EDD3EC2AEF),
    Curve(5, 66, 2**521 - 1, int("51953EB9618E1C9A1F929A21A0B68540EEA2DA725B99B315F3B8B489918EF109E156193951EC7E937B1652C0BD3BB1BF073573DF883D2C34F1"
                                 "EF451FD46B503F00", 16)),
)


def short(value):
    return value.to_bytes(2, "big")


def long(value):
    return value.to_bytes(4, "big")


def sized(data):
    """The two fields of bytes with their size."""
    return [short(len(data)), data]


def coordinate(value, size, chance):
    """The bytes of a coordinate, as many as the curve has, or now and then without some zeros before it."""
    least = (value.bit_length() + 7) // 8
    return value.to_bytes(chance.choice((size, size, chance.randint(least, size))), "big")


def symmetric(chance, is_endorsement):
    if not is_endorsement and chance.random() < 0.8:
        return [short(NULL)]
    return [short(AES), short(chance.choice((128, 256, 65535))), short(chance.choice((0x43, NULL)))]


def scheme(chance, kind, is_endorsement):
    """The scheme, and its hash if it has one: for an attestation key mostly one that signs."""
    if is_endorsement and chance.random() < 0.5:
        return [short(NULL)]
    identifier = chance.choice([0x0018] if kind == ECC else [0x0014, 0x0016]) if chance.random() < 0.8 else chance.choice([*SCHEMES[kind]])
    return [short(identifier), *([short(chance.choice(HASHES))] if SCHEMES[kind][identifier][1] else [])]


def rsa_key(chance):
    bits = chance.choice(RSA_BITS if chance.random() < 0.9 else SMALL_BITS)
    modulus = chance.getrandbits(bits) | 1 << bits - 1 | 1
    return [short(bits), long(chance.choice((0, EXPONENT))), *sized(modulus.to_bytes(bits // 8, "big"))]


def ecc_key(chance):
    curve = chance.choice(CURVES)
    x, y = curve.point(chance.getrandbits(8 * chance.choice((curve.size, curve.size, chance.randint(0, curve.size)))) % curve.p)
    return [short(curve.identifier), short(NULL), *sized(coordinate(x, curve.size, chance)), *sized(coordinate(y, curve.size, chance))]


def whole_area(chance, is_endorsement):
    """The fields of an area that has no fault but what it may lack by its name's hash, its scheme or its size."""
    kind = chance.choice((RSA, ECC))
    attributes = (ENDORSING if is_endorsement else ATTESTING) | (chance.getrandbits(32) & ~sum(1 << bit for bit in TOLD_BITS))
    policy = chance.randbytes(chance.choice((0, 0, 1, 32, 48, 300)))
    head = [short(kind), short(chance.choice(HASHES[1:] if chance.random() < 0.9 else HASHES)), long(attributes), *sized(policy)]
    key = rsa_key(chance) if kind == RSA else ecc_key(chance)
    return [*head, *symmetric(chance, is_endorsement), *scheme(chance, kind, is_endorsement), *key]


class Taken:
    """The fields of an area as they are taken."""

    def __init__(self, area):
        self.source, self.fields = Fields(area, "big"), []

    def take(self, *sizes):
        """Takes fields of these sizes: the number that the last one is."""
        self.fields += [self.source.take(size) for size in sizes]
        return int.from_bytes(self.fields[-1], "big")

    def take_sized(self):
        self.take(self.take(2))


def fields_of(area):
    """The fields of a whole area that has its size before it."""
    taken = Taken(area[2:])
    kind = taken.take(2)
    taken.take(2, 4)
    taken.take_sized()
    if taken.take(2) == AES:
        taken.take(2, 2)
    _, has_hash = SCHEMES[kind][taken.take(2)]
    taken.take(*[2] * has_hash, *((2, 4) if kind == RSA else (2, 2)))
    for _ in range(1 if kind == RSA else 2):
        taken.take_sized()
    return taken.fields


SAMPLES = [(file.name.startswith(("ek-", "storage")), fields_of(file.read_bytes())) for file in sorted(KEYS.glob("*.pub"))]


# What changes some fields at random.


def turn_bit(chance, fields):
    place = chance.choice([place for place, field in enumerate(fields) if field])
    bit = chance.randrange(8 * len(fields[place]))
    value = int.from_bytes(fields[place], "big") ^ 1 << bit
    fields[place] = value.to_bytes(len(fields[place]), "big")


def set_number(chance, fields):
    """A number at a boundary, or that something else has, in place of another."""
    places = [place for place, field in enumerate(fields) if len(field) in (2, 4)]
    if not places:
        return
    place = chance.choice(places)
    fields[place] = short(chance.choice(SHORT_NUMBERS)) if len(fields[place]) == 2 else long(chance.choice(LONG_NUMBERS))


def set_attributes(chance, fields):
    """Attributes at random: all of them, or one of those by which keys are refused."""
    if len(fields) < 3 or len(fields[2]) != 4:
        return
    before = int.from_bytes(fields[2], "big")
    fields[2] = long(chance.choice((before ^ 1 << chance.choice(TOLD_BITS), before ^ 1 << chance.choice(TOLD_BITS), chance.getrandbits(32))))


def exchange(chance, fields):
    one, other = chance.randrange(len(fields)), chance.randrange(len(fields))
    fields[one], fields[other] = fields[other], fields[one]


def take_from_another(chance, fields):
    """A field that is at this place of another area."""
    _, other = chance.choice(SAMPLES)
    place = chance.randrange(min(len(fields), len(other)))
    fields[place] = other[place]


def leave_out(chance, fields):
    del fields[chance.randrange(len(fields))]


def repeat(chance, fields):
    place = chance.randrange(len(fields))
    fields.insert(place, fields[place])


def resize(chance, fields):
    """Sized bytes with some more or fewer at either end, and their size."""
    places = [place for place in range(1, len(fields)) if fields[place - 1] == short(len(fields[place]))]
    if places:
        place = chance.choice(places)
        data = fields[place]
        changed = (data[1:], data[:-1], b"", b"\0" + data, data + b"\0", data.lstrip(b"\0"), b"\x7f" + data[1:], b"\0" + data[1:])
        fields[place - 1 : place + 1] = sized(chance.choice(changed))


def cut(chance, fields):
    fields[-1] = fields[-1][: chance.randrange(len(fields[-1]) + 1)]
    del fields[chance.choice((len(fields), chance.randrange(1, len(fields) + 1))) :]


def lengthen(chance, fields):
    fields.append(chance.randbytes(chance.choice((1, 1, 2, 100))))


CHANGES = (turn_bit, turn_bit, set_number, set_number, set_attributes, set_attributes, exchange, take_from_another, leave_out, repeat, resize,
           resize, cut, lengthen)


def held(chance, area):
    """An area with its size before it, which now and then is another, or is not all that there is; or a bare one."""
    size = len(area) & 0xFFFF
    if chance.random() < 0.3:
        return area
    if chance.random() < 0.95:
        return short(size) + area
    others = (short((size + chance.choice((-1, 1, 256))) & 0xFFFF) + area, short(size) + area + bytes(chance.randint(1, 3)),
              (short(size) + area)[: chance.randrange(size + 2)], short(chance.choice(SHORT_NUMBERS)) + area, short(RSA) + area, short(ECC) + area,
              area[:2] + short(size) + area[2:])
    return chance.choice(others)


def random_area(chance):
    """The bytes of an area, and whether it is looked at as that of an endorsement key."""
    is_endorsement = chance.random() < 0.4
    if chance.random() < 0.5:
        fields = whole_area(chance, is_endorsement)
    else:
        is_endorsement, fields = chance.choice(SAMPLES)
    fields = list(fields)
    for change in chance.choices(CHANGES, k=chance.choice((0, 1, 1, 1, 2, 3))):
        if any(fields):
            change(chance, fields)
    return held(chance, b"".join(fields)), is_endorsement ^ (chance.random() < 0.1)
