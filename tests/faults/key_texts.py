#!/usr/bin/env python3
"""Compares what `check_signed` answers on keys as text with the reference and Python's cryptography: on public areas of attestation keys with each
scheme, on PEM that cryptography and openssl write, on other texts that begin as PEM does, and on PEM and public areas that are changed at random.

tests/faults/key_texts.py [PROGRAM]: what answers questions on signatures, by default the program of crates/signature_lines that was built here.

What PEM states is decided by writing it again, from the numbers that are found in it. The script counts questions."""

import random
import re
import shutil
import subprocess
import sys
from base64 import b64decode
from binascii import Error as NotBase64
from collections import Counter
from datetime import datetime
from itertools import product
from pathlib import Path

sys.path.insert(0, str(Path(__file__).resolve().parents[1]))
import harness  # noqa: E402
from reference import keys as reference  # noqa: E402
from reference.faults import Fault  # noqa: E402

try:
    import areas
    import signatures
    from cryptography import x509
    from cryptography.hazmat.primitives import serialization
    from cryptography.hazmat.primitives.asymmetric import ec, padding, rsa, utils
    from forgeries import HASHES, number_of
except ModuleNotFoundError as cause:
    if cause.name.partition(".")[0] != "cryptography":
        raise
    signatures = None

SEED = 21
MOMENT = datetime(2026, 1, 1)
DAMAGED, CHANGED_AREAS = 20_000, 4000
RSA_SIZES, UNTAKEN_SIZES = (2048, 3072, 4096), (1024, 4104)
SCHEMES = {"rsassa": 0x14, "rsapss": 0x16, "ecdsa": 0x18}
HASH_IDS = {"sha1": 0x4, "sha256": 0xB, "sha384": 0xC, "sha512": 0xD}
MESSAGE = b"\xffTCG\x80\x18 and what follows"
OTHER_KEY, OTHER_PEM, NOT_SIGNED, OTHER_HASH, OTHER_SCHEME = (f"signature fault {number}" for number in (8, 9, 7, 6, 5))
BEGINNING, FIRST, LAST = b"-----BEGIN", b"-----BEGIN PUBLIC KEY-----", b"-----END PUBLIC KEY-----"
SYMBOLS = b"ABCDEFGHIJKLMNOPQRSTUVWXYZabcdefghijklmnopqrstuvwxyz0123456789+/="


class Key:
    """A key that signs, as PEM and as a public area."""

    def __init__(self, private):
        self.private, self.public = private, private.public_key()
        self.numbers = self.public.public_numbers()
        self.is_rsa = isinstance(self.public, rsa.RSAPublicKey)
        self.schemes = ("rsassa", "rsapss") if self.is_rsa else ("ecdsa",)
        self.pem = self.written(serialization.Encoding.PEM)

    def written(self, encoding, form=None):
        return self.public.public_bytes(encoding, form or serialization.PublicFormat.SubjectPublicKeyInfo)

    def sign(self, scheme, hash, message=MESSAGE):
        """The numbers of a signature."""
        if scheme == "ecdsa":
            size = (self.public.key_size + 7) // 8
            signature = self.private.sign(message, ec.ECDSA(HASHES[hash]))
            return [value.to_bytes(size, "big").lstrip(b"\0") for value in utils.decode_dss_signature(signature)]
        mode = padding.PSS(padding.MGF1(HASHES[hash]), padding.PSS.DIGEST_LENGTH) if scheme == "rsapss" else padding.PKCS1v15()
        return [self.private.sign(message, mode, HASHES[hash])]

    def plain(self, numbers):
        return numbers[0] if self.is_rsa else utils.encode_dss_signature(*(number_of(number) for number in numbers))

    def area(self, scheme, hash, attributes=None, exponent=0, name=0xB, policy=b"", strip=False):
        """The public area of a key that signs so."""
        attributes = areas.ATTESTING if attributes is None else attributes
        fields = [areas.short(1 if self.is_rsa else 0x23), areas.short(name), areas.long(attributes), *areas.sized(policy), areas.short(0x10),
                  *([areas.short(SCHEMES[scheme]), areas.short(HASH_IDS[hash])] if scheme else [areas.short(0x10)])]
        if self.is_rsa:
            modulus = self.numbers.n.to_bytes(self.public.key_size // 8, "big")
            fields += [areas.short(self.public.key_size), areas.long(exponent), *areas.sized(modulus)]
        else:
            curve = {256: 3, 384: 4, 521: 5}[self.public.key_size]
            coordinates = [value.to_bytes((self.public.key_size + 7) // 8, "big") for value in (self.numbers.x, self.numbers.y)]
            fields += [areas.short(curve), areas.short(0x10)]
            fields += [field for data in coordinates for field in areas.sized(data.lstrip(b"\0") if strip else data)]
        area = b"".join(fields)
        return areas.short(len(area)) + area


def stated(text):
    """The SubjectPublicKeyInfo of the key that PEM states, written by the reference; or None if it is not the PEM of a key that is taken."""
    lines = text.split(b"\n")
    try:
        info = b64decode(b"".join(lines[1:-2]), validate=True)
    except NotBase64:
        return None
    keys = [reference.RsaKey(8 * (len(info) - 38), number_of(info[33:-5]))] if 294 <= len(info) <= 550 else []
    curve = {91: (reference.CURVES[3], 27, 59), 120: (reference.CURVES[4], 24, 72)}.get(len(info))
    if curve:
        keys = [reference.EccKey(curve[0], info[curve[1] : curve[2]], info[curve[2] :])]
    for key in keys:
        if reference.pem_of(key).encode() == text and (curve or key.modulus.bit_length() == key.bits):
            return info
    return None


def area_fault(data):
    """What is answered if the bytes are no public area of an attestation key, or one whose signatures are not verified here; or None."""
    try:
        area = reference.read_key(data)
    except Fault as fault:
        return f"key fault {fault.number}"
    return OTHER_KEY if area.key.bits > 4096 or area.key.bits == 521 or (area.key.type == "ecc") != (area.scheme == "ecdsa") else None


class KeyTexts(harness.TestCase):
    @classmethod
    def setUpClass(cls):
        if signatures is None:
            cls.lacks("cryptography for Python")
        cls.chance = random.Random(SEED)
        cls.rsa = [Key(rsa.generate_private_key(65537, bits)) for bits in RSA_SIZES]
        cls.ecc = [Key(ec.generate_private_key(curve)) for curve in (ec.SECP256R1(), ec.SECP384R1())]
        cls.keys = [*cls.rsa, *cls.ecc]
        cls.p521 = Key(ec.generate_private_key(ec.SECP521R1()))

    def compare(self, title, wanted):
        """Counts the questions (key, message, signature) that are answered as is wanted."""
        lines = [" ".join(["signed", *(part.hex() or "-" for part in asked)]) for asked, _ in wanted]
        found = signatures.answers(lines)
        wrong = [f"{answer}, and not {want}: {signatures.shown(line)}" for line, answer, (_, want) in zip(lines, found, wanted) if answer != want]
        self.check_all(title, len(wanted) - len(wrong), wrong)

    def signatures_of(self, key):
        """Signatures of the message by each scheme and hash, in both forms."""
        for scheme, hash in product(key.schemes, HASHES):
            numbers = key.sign(scheme, hash)
            yield scheme, hash, True, key.plain(numbers)
            yield scheme, hash, False, signatures.tpmt(SCHEMES[scheme], HASH_IDS[hash], *numbers)

    def test_pem(self):
        """PEM of each kind of key, by each scheme and hash"""
        wanted = []
        for key in self.keys:
            for *_, signature in self.signatures_of(key):
                wanted += [((key.pem, MESSAGE, signature), "valid"), ((key.pem, MESSAGE + b"m", signature), NOT_SIGNED),
                           ((key.pem, MESSAGE, signature + b"\0"), None)]
            other = self.keys[self.keys.index(key) - 1]
            wanted += [((other.pem, MESSAGE, signature), None) for *_, signature in self.signatures_of(key)]
        told = [(asked, want) for asked, want in wanted if want]
        self.compare("PEM of keys that are taken", told)
        lines = [" ".join(["signed", *(part.hex() or "-" for part in asked)]) for asked, want in wanted if not want]
        wrong = [line for line, answer in zip(lines, signatures.answers(lines)) if not re.fullmatch(r"signature fault [1-7]", answer)]
        self.check_all("signatures by another key, and bytes after them", len(lines) - len(wrong), wrong)

    def test_openssl(self):
        """PEM that openssl writes"""
        if not shutil.which("openssl"):
            self.lacks("openssl")
        for key in self.keys:
            private = key.private.private_bytes(serialization.Encoding.PEM, serialization.PrivateFormat.PKCS8, serialization.NoEncryption())
            written = subprocess.run(["openssl", "pkey", "-pubout"], input=private, stdout=subprocess.PIPE, check=True, timeout=60).stdout
            self.check(f"{key.public.key_size} bits: openssl and cryptography write the same", written, key.pem)
            area = reference.read_key(key.area(key.schemes[0], "sha256"))
            self.check(f"{key.public.key_size} bits: the reference too", reference.pem_of(area.key).encode(), key.pem)

    def other_texts(self):
        """Texts that are no PEM of a key that is taken, with their key."""
        small = [Key(rsa.generate_private_key(65537, bits)) for bits in UNTAKEN_SIZES]
        three = Key(rsa.generate_private_key(3, 2048))
        for key in (*small, three, self.p521):
            yield key, key.pem
        name = x509.Name([x509.NameAttribute(x509.NameOID.COMMON_NAME, "ak")])
        for key in self.keys:
            encodings = serialization.Encoding
            yield key, key.written(encodings.DER)
            private = serialization.PrivateFormat
            forms = (private.PKCS8, private.TraditionalOpenSSL)
            yield from ((key, key.private.private_bytes(encodings.PEM, form, serialization.NoEncryption())) for form in forms)
            certificate = x509.CertificateBuilder(name, name, key.public, 1, MOMENT, MOMENT).sign(key.private, HASHES["sha256"])
            yield from ((key, certificate.public_bytes(encoding)) for encoding in (encodings.PEM, encodings.DER))
            yield from ((key, text) for text in self.rewritten(key.pem) if text != key.pem)
        yield from ((key, key.written(serialization.Encoding.PEM, serialization.PublicFormat.PKCS1)) for key in self.rsa)
        for key in self.ecc:
            yield key, key.written(serialization.Encoding.X962, serialization.PublicFormat.CompressedPoint)
        yield self.rsa[0], b""
        yield from ((self.rsa[0], FIRST[:size]) for size in range(len(FIRST) + 1))

    def rewritten(self, pem):
        """Texts that mean the same, or hold the key beside something else."""
        text = b"".join(pem.split(b"\n")[1:-2])
        yield from (pem.replace(b"\n", b"\r\n"), pem[:-1], pem + b"\n", b"\n" + pem, b" " + pem, pem + pem, pem + b"\0", pem.replace(b"\n", b" \n"))
        yield from (b"\xef\xbb\xbf" + pem, pem.replace(b"PUBLIC KEY", b"RSA PUBLIC KEY"), pem.replace(b"=", b""))
        yield pem.replace(FIRST, FIRST + b"\nA: b\n")
        for width in (63, 76, len(text)):
            lines = [text[place : place + width] for place in range(0, len(text), width)]
            yield b"".join(line + b"\n" for line in [FIRST, *lines, LAST])

    def test_others(self):
        """Other texts of keys"""
        wanted = []
        for key, text in self.other_texts():
            signature = key.plain(key.sign(key.schemes[0], "sha256"))
            wanted.append(((text, MESSAGE, signature), OTHER_PEM if text.startswith(BEGINNING) else area_fault(text)))
        self.check("none is taken", [want for _, want in wanted if want in (None, "valid")], [])
        self.compare("other keys, and other texts of a key", wanted)

    def test_damaged(self):
        """PEM that is changed at random"""
        signed = [(key, key.plain(key.sign(key.schemes[0], "sha256"))) for key in self.keys]
        infos, wanted = {key.pem: stated(key.pem) for key in self.keys}, []
        self.check("PEM states its key", list(infos.values()), [key.written(serialization.Encoding.DER) for key in self.keys])
        for _ in range(DAMAGED):
            key, signature = self.chance.choice(signed)
            text = self.damaged(key.pem)
            info = stated(text)
            answer = area_fault(text) if not text.startswith(BEGINNING) else OTHER_PEM if info is None else "valid" if text == key.pem else NOT_SIGNED
            wanted.append(((text, MESSAGE, signature), answer))
        accepted = [asked[0] for asked, want in wanted if want == "valid"]
        self.check("what is accepted is the same key to cryptography", [text for text in accepted if text not in infos], [])
        told = Counter(want for _, want in wanted)
        self.compare(f"PEM, changed at random: {', '.join(f'{want} {count}' for want, count in sorted(told.items()))}", wanted)

    def damaged(self, pem):
        text = bytearray(pem)
        if self.chance.random() < 0.5:
            return signatures.changed(self.chance, pem)
        for _ in range(self.chance.choice((1, 1, 2, 4))):
            text[self.chance.randrange(len(text))] = self.chance.choice(SYMBOLS)
        return bytes(text)

    def test_areas(self):
        """Public areas of keys with each scheme and hash"""
        wanted = []
        for key in self.keys:
            made = list(self.signatures_of(key))
            for scheme, hash in product(key.schemes, HASHES):
                others = ({}, {"exponent": 65537 if key.is_rsa else 0}, {"policy": bytes(32)}, {"name": 0xC}, {"strip": True})
                variants = [key.area(scheme, hash, **other) for other in others]
                variants.append(variants[0][2:])
                for *by, is_plain, signature in made:
                    answer = self.answer_of([scheme, hash], by, is_plain)
                    wanted += [((area, MESSAGE, signature), answer) for area in (variants if answer == "valid" else variants[:1])]
                wanted += [((variants[0], MESSAGE + b"m", signature), NOT_SIGNED) for *by, _, signature in made if by == [scheme, hash]]
        self.compare("public areas of attestation keys", wanted)

    def answer_of(self, its, by, is_plain):
        """What is answered on a signature made by one scheme and hash, for a key that has its own."""
        if is_plain or its == by:
            return "valid" if its == by else NOT_SIGNED
        return OTHER_SCHEME if its[0] != by[0] else OTHER_HASH

    def test_other_areas(self):
        """Public areas of keys that are not taken"""
        wanted = []
        large = Key(rsa.generate_private_key(65537, 4104))
        for key in (*self.keys, self.p521, large):
            scheme = key.schemes[0]
            signature = key.plain(key.sign(scheme, "sha256"))
            lacking = [key.area(scheme, "sha256", attributes=areas.ATTESTING ^ 1 << bit) for bit in areas.TOLD_BITS]
            lacking += [key.area(None, None), key.area(scheme, "sha1"), key.area(scheme, "sha256", name=0x4), key.area(scheme, "sha256")[:-1],
                        key.area(scheme, "sha256") + b"\0", key.area(scheme, "sha256", attributes=areas.ENDORSING)]
            lacking += [area[2:] for area in lacking]
            wanted += [((area, MESSAGE, signature), area_fault(area)) for area in lacking]
        self.check("each has its fault", [want for _, want in wanted if want is None], [])
        for key in (self.p521, large):
            wanted.append(((key.area(key.schemes[0], "sha256"), MESSAGE, key.plain(key.sign(key.schemes[0], "sha256"))), OTHER_KEY))
        self.compare("public areas of other keys", wanted)

    def test_changed_areas(self):
        """Public areas that are changed at random, with bytes that are no signature"""
        made = [areas.random_area(self.chance)[0] for _ in range(CHANGED_AREAS)]
        self.compare("public areas, changed at random", [((area, MESSAGE, b"\x30\0\0"), area_fault(area) or "signature fault 2") for area in made])


if __name__ == "__main__":
    sys.exit(harness.main())
