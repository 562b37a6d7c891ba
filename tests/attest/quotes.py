"""Tests of quotes: messages that state the registers of samples/quoted in other ways, and the quote that is there."""

import re
import shutil
import textwrap
from base64 import b64decode
from dataclasses import replace
from itertools import product

from calling import (
    EXPECTED,
    GOOD,
    LAST_ENTRY,
    NO_SIGNATURE,
    NONCE,
    NOT_SIGNED,
    OTHER_HASH,
    OTHER_KEY,
    OTHER_PEM,
    OTHER_SCHEME,
    QUOTED,
    SIGNATURE_TRAILING,
    AttestTests,
    OwnKeyTests,
    turned,
)
from emulated import ROOT
from reference.attestations import VALID, attest_report
from reference.faults import Fault
from reference.registers import SHA256, SHA384, SHA512

LOG, LIST = GOOD.log.read_bytes(), GOOD.list.read_bytes()
AREAS = {path.stem: path.read_bytes() for path in ROOT.joinpath("samples/keys").glob("*.pub")}
SIGNED = ROOT / "samples/signed"
RSA = ("-algorithm", "RSA", "-pkeyopt", "rsa_keygen_bits:2048")
RSASSA, RSAPSS = "rsassa", "rsapss"
SCHEMES = {RSASSA: 0x0014, RSAPSS: 0x0016}
RSA_PLACE, MODULUS = 14, 256  # where an area of a key of samples/keys names its scheme, and how long its modulus is


def area_of(key, scheme=RSASSA, algorithm=SHA256):
    """The public area that `tpm2_createak` makes of an RSA key of 2048 bits, by the key's PEM. (Its end is the modulus and five bytes.)"""
    info = b64decode("".join(key.read_text().splitlines()[1:-1]))
    fields = AREAS["ak-rsassa"][:-MODULUS]
    fields = fields[:RSA_PLACE] + SCHEMES[scheme].to_bytes(2, "big") + algorithm.identifier.to_bytes(2, "big") + fields[RSA_PLACE + 4 :]
    return fields + info[-MODULUS - 5 : -5]


def due(message, nonce=NONCE, listed=LIST, expected=None):
    """What the reference answers to a message with the sample's log, and its list or another: status and output."""
    try:
        report = attest_report(LOG, listed, message, bytes.fromhex(nonce), GOOD.require, signature=VALID, expected=expected)
    except Fault as fault:
        return fault.status, f"{fault.line}\n"
    return 0 if report.matches else 1, report.text()


class Messages(OwnKeyTests):
    """Messages that are no quote of these values, signed by a key that signs anything."""

    def test_messages(self):
        """Each message is judged as the reference judges it."""
        message = GOOD.quote.read_bytes()
        texts = re.findall(r"^    \d+ *: 0x(\w+)$", (QUOTED / "sha256.txt").read_text(), re.MULTILINE)
        values = b"".join(map(bytes.fromhex, texts))
        selection = message.index(bytes.fromhex("00000001000b03ff0700"))
        bank, size, apart = selection + 4, selection + 6, []

        def attested(changed, **changes):
            ended = self.attest(quote=self.put("message", changed), **changes)
            if (ended.status, ended.output) != due(changed, **changes):
                apart.append(changed.hex())
            return ended

        def selecting(bits, registers=values):
            return message[: size + 1] + bytes.fromhex(bits) + message[size + 4 : -32] + SHA256.hash(registers)

        def banks(*selections):
            parts = [bytes.fromhex(part) for part in selections]
            return message[:selection] + len(parts).to_bytes(4, "big") + b"".join(parts) + message[size + 4 :]

        self.check_match("a message that is as it was", attested(message))
        for length in range(len(message)):
            ended = attested(message[:length])
            if (ended.status, ended.output) != (4, "refused: quote fault 1\n"):
                self.check_fault(f"a message of {length} bytes", ended, 2 if length < 6 else 1)
        for title, nonce in (("another nonce", "00" + NONCE[2:]), ("a nonce that goes on", NONCE + "00"), ("a longer nonce", NONCE[:-2]),
                             ("a longer nonce, by its end", NONCE[2:])):
            self.check_fault(f"a message with {title}", attested(message, nonce=nonce), 11)
        for title, changed, fault in (
            ("a message that goes on", message + b"\0", 10),
            ("a message that no TPM made", b"\0" + message[1:], 2),
            ("a message of another type", message[:5] + b"\x17" + message[6:], 2),
            ("a bank that is not known", message[:bank] + b"\0\x12" + message[bank + 2 :], 4),
            ("registers of another bank", message[:bank] + b"\0\x0c" + message[bank + 2 :], 12),
            ("a register less", selecting("ff0300"), 12),
            ("a register less, and its value", selecting("ff0300", values[:-32]), 12),
            ("another register", selecting("ff0b00"), 12),
            ("no register", selecting("000000"), 8),
            ("no bank", banks(), 8),
            ("register 24", message[:size] + bytes.fromhex("04ff070001") + message[size + 4 :], 7),
            ("a bank in two parts", banks("000b03ff0300", "000b03000400"), 5),
            ("a register twice", banks("000b03ff0700", "000b03000400"), 5),
            ("a bank again, without registers", banks("000b03ff0700", "000b03000000"), 5),
            ("five banks", banks("000b03ff0700", "000403000000", "000c03000000", "000d03000000", "000b03000000"), 6),
        ):
            self.check_fault(f"a selection or a message that is refused: {title}", attested(changed), fault)
        for title, changed in (
            ("a register more, without a value", selecting("ff0f00")),
            ("a register more, with another value", selecting("ff0f00", values + bytes(31) + b"\1")),
            ("a value in another place", selecting("ff0700", values[32:64] + values[:32] + values[64:])),
            ("another hash of the values", turned(message)),
        ):
            self.check_differ(f"values of others: {title}", attested(changed))
        more = attested(selecting("ff0f00", values + bytes(32)))
        self.check_match("a register more, with its value", more, quoted="quoted sha256 0 1 2 3 4 5 6 7 8 9 10 11")
        for algorithm in (SHA384, SHA512):
            changed = message[:-34] + algorithm.size.to_bytes(2, "big") + algorithm.hash(values)
            self.check_match(f"a hash of the values by {algorithm.name}", attested(changed))
        for length in (0, 1, 20, 31, 33, 48, 64):
            ended = attested(message[:-34] + length.to_bytes(2, "big") + bytes(length))
            if length in (48, 64):
                self.check_differ(f"a hash of {length} bytes", ended)
            else:
                self.check_fault(f"a hash of {length} bytes", ended, 9)
        self.check("messages of which the reference says another thing than ima-attest", apart, [])


class Samples(AttestTests):
    """The quote of samples/quoted."""

    def test_sample(self):
        """The sample's quote, with lists that are older and newer."""
        ended = self.attest()
        self.check_match("samples/quoted", ended)
        page = (ROOT / "docs/attest.md").read_text()
        self.check("samples/quoted: attest.md shows this report", textwrap.indent(ended.output, "    ") in page)
        self.check("samples/quoted: the report is that of the reference", (ended.status, ended.output), due(GOOD.quote.read_bytes()))
        self.check_match("a nonce in capitals", self.attest(nonce=NONCE.upper()))
        words, names = [f"{option}={value}" for option, value in GOOD.options()], [str(GOOD.log), str(GOOD.list)]
        self.check_match("options as one word each", self.call(["ima-attest", *words, *names]))
        ended = self.call(["ima-attest", *words, "--nonce=", *names])
        self.check_refused("a second nonce, which is empty", ended, 64, "--nonce is given twice")
        self.check_fault("registers are required that were not quoted", self.attest(require="sha256:0-11,sha1:10", sha1=True), 12)
        longer = self.put("longer.list", LIST + LIST[-LAST_ENTRY:])
        self.check_differ("a list that went on after the quote", self.attest(list=longer))
        command, *words = replace(GOOD, list=longer).words()
        said = ("PCR 10 covers the first 99 of 100 entries: the list grew after PCR 10 was read; collect again, or add --prefix to judge only the "
                "first 99\n")
        ended = self.call([command, "--explain", *words])
        self.check("the verdict is the last line, and what to do next is said beside it", (ended.output.splitlines()[-1], ended.errors),
                   ("verdict differ", said))
        ended = self.attest(list=longer, prefix=True)
        self.check_match("a list that went on after the quote, by its prefix", ended)
        self.check("how much of it is confirmed", "\nconfirmed 99 of 100 entries\n" in ended.output)
        forged = self.put("forged.list", LIST + LIST[-LAST_ENTRY:-1] + b"\1")
        ended = self.attest(list=forged, prefix=True)
        self.check_match("an entry after the quote that is not genuine", ended)
        self.check("it is told", "\nunconfirmed: replay fault 1 at entry 99\n" in ended.output)
        self.check_differ("a list that is older than the quote", self.attest(list=self.put("early.list", LIST[:-LAST_ENTRY]), prefix=True))

    def test_expected(self):
        """With expected registers the report says which differ, if they are those that were quoted."""
        right, early = EXPECTED.read_bytes(), LIST[:-LAST_ENTRY]
        texts = {"right": right, "fewer": right.partition(b"\n")[2], "changed": right.replace(b"sha256 10 e", b"sha256 10 f"), "empty": b""}
        for title, text in texts.items():
            for listed in (LIST, early):
                ended = self.attest(list=self.put("judged.list", listed), expected=self.put("registers.txt", text))
                found = (ended.status, ended.output, ended.errors)
                self.check(f"{title} registers and a list of {len(listed)} bytes", found, (*due(GOOD.quote.read_bytes(), NONCE, listed, text), ""))
                confirmed = f"expected {'confirmed' if title == 'right' else 'unconfirmed'}" in ended.output.splitlines()
                differs = "\nsha256 10 differ " in ended.output
                self.check(f"{title} registers: what is said", (confirmed, differs), (True, title == "right" and listed == early))
        ended = self.attest(list="judged.list", expected=EXPECTED)
        self.check_differ("attest.md: which register differs", ended, "expected confirmed", "sha256 9 match")
        ended = self.call(["ima-agent", "locate", str(GOOD.log), "judged.list", str(EXPECTED)])
        self.check("attest.md: where it is reached", ("sha256 10 nowhere" in ended.output, ended.status), (True, 1))
        ended = self.attest(expected=self.put("registers.txt", b"sha256 10\n"))
        self.check("registers that are none", (ended.status, ended.output), (2, "refused: expected fault 1 at line 1\n"))
        self.check_unread("no such file of registers", self.attest(expected="none"), "none")

    def test_signature(self):
        """A signature in another form, of another message, or by another key."""
        signature, message, tpmt = (path.read_bytes() for path in (GOOD.signature, GOOD.quote, QUOTED / "quote.tpmt"))
        self.check_match("a signature as without `-f plain`", self.attest(signature=QUOTED / "quote.tpmt"))
        for name in ("rsassa", "rsa3072", "rsapss", "p256", "p384"):
            key, quote = SIGNED / f"{name}.pub", SIGNED / f"{name}.msg"
            bare = self.put("bare.pub", key.read_bytes()[2:])
            for given, form in product((key, key.with_suffix(".pem"), bare), ("tpmt", "sig")):
                ended = self.attest(key=given, quote=quote, signature=SIGNED / f"{name}.{form}")
                self.check_match(f"a signature by {name}, with {given.name}: {form}", ended)
        for title, changed, *numbers in (
            ("that is empty", b"", *NO_SIGNATURE), ("that is cut", signature[:-1], *NO_SIGNATURE), ("with a bit turned", turned(signature), NOT_SIGNED),
            ("of zeros", bytes(256), NOT_SIGNED), ("that is the message", message, *NO_SIGNATURE),
            ("with a byte after it", signature + b"\0", *NO_SIGNATURE),
            ("with a scheme, with a byte after it", tpmt + b"\0", SIGNATURE_TRAILING), ("with a scheme, with a bit turned", turned(tpmt), NOT_SIGNED),
            ("with a scheme, cut", tpmt[:-1], *NO_SIGNATURE), ("with a scheme, another", b"\0\x16" + tpmt[2:], NOT_SIGNED),
            ("with a scheme, of another kind of key", b"\0\x18" + tpmt[2:], *NO_SIGNATURE),
            ("with a scheme that is none", b"\0\x10" + tpmt[2:], *NO_SIGNATURE),
            ("with a scheme, by SHA-384", tpmt[:3] + b"\x0c" + tpmt[4:], NOT_SIGNED),
            ("with a scheme, by SHA-1", tpmt[:3] + b"\x04" + tpmt[4:], OTHER_HASH),
        ):
            self.check_unsigned(f"a signature {title}", self.attest(signature=self.put("other.sig", changed)), *numbers)
        for place in range(0, len(message), 7):
            changed = message[:place] + bytes([message[place] ^ 1]) + message[place + 1 :]
            self.check_unsigned(f"byte {place} of the message is another", self.attest(quote=self.put("other.msg", changed)))

    def test_key(self):
        """A key that is none, or in another form. Its public area says that the key is restricted, and its PEM does not."""
        key, message, area = GOOD.key.read_bytes(), GOOD.quote.read_bytes(), area_of(GOOD.key)
        self.check_match("the key's public area", self.attest(key=self.put("AK.pub", area)))
        self.check_match("the key's public area, and a signature with a scheme", self.attest(key="AK.pub", signature=QUOTED / "quote.tpmt"))
        for title, changed, number in (
            ("that is empty", b"", 1), ("that is the message", message, 1), ("that is cut", area[:-1], 1), ("with a byte after it", area + b"\0", 10),
            ("that is the area of a key that signs anything", AREAS["unrestricted"], 15), ("that is the area of a storage key", AREAS["storage"], 17),
            ("that is the area of an endorsement key", AREAS["ek-rsa"], 17), ("that signs by SHA-1", AREAS["ak-sha1"], 20),
        ):
            for signature in (GOOD.signature, "none"):
                ended = self.attest(key=self.put("other.pub", changed), signature=signature)
                if signature == "none":
                    self.check_unread(f"a key {title}, and no signature", ended, signature)
                else:
                    self.check_key(f"a key {title}", ended, number)
        for title, changed in (("as a certificate that is none", key.replace(b"PUBLIC KEY", b"CERTIFICATE")), ("that is cut", key[:-60]),
                               ("that is a line", key.partition(b"\n")[0]), ("of 64 MiB", key.partition(b"\n")[0] + b"\n" + bytes((64 << 20) - 27))):
            self.check_unsigned(f"a key {title}", self.attest(key=self.put("other.pem", changed)), OTHER_PEM)
        for scheme, hashed, numbers in ((RSASSA, SHA384, (NOT_SIGNED, OTHER_HASH)), (RSAPSS, SHA256, (NOT_SIGNED, OTHER_SCHEME))):
            changed = self.put("other.pub", area_of(GOOD.key, scheme, hashed))
            for signature, number in zip((GOOD.signature, QUOTED / "quote.tpmt"), numbers):
                ended = self.attest(key=changed, signature=signature)
                self.check_unsigned(f"the key's area with another scheme, {scheme} and {hashed.name}, and {signature.name}", ended, number)
        others = {name: self.attest(key=self.put("other.pub", AREAS[name])) for name in ("ak-rsassa", "ak-p256", "ak-p384", "ak-p521")}
        self.check_unsigned("another key's public area", others["ak-rsassa"])
        for name in ("ak-p256", "ak-p384"):
            self.check_unsigned(f"the public area of a key on a curve: {name}", others[name], *NO_SIGNATURE)
        self.check_unsigned("the public area of a key on P-521", others["ak-p521"], OTHER_KEY)

    def test_environment(self):
        """What bash would take from its environment changes no call: a script to run first, options, and functions named as what is called."""
        early, first = self.put("early.list", LIST[:-LAST_ENTRY]), self.put("first", b"exit 0\n")
        named = ("openssl", "ima-agent", "mktemp", "dd", "readlink", "rm", "set", "trap", "printf", "exit", "exec")
        given = [{"BASH_ENV": str(first)}, {"SHELLOPTS": "noexec"}, {"BASHOPTS": "failglob"}, {"POSIXLY_CORRECT": "1"},
                 *({f"BASH_FUNC_{name}%%": f"() {{ {body}; }}"} for name in named for body in ("exit 0", ":"))]
        for title, status, words in (
            ("a list that differs", 1, replace(GOOD, list=early).words()), ("a match", 0, GOOD.words()),
            ("a stale nonce", 4, replace(GOOD, nonce="00" * 20).words()), ("the version", 64, ["ima-enroll", "--version"]),
            ("a wrong call of ima-enroll", 64, ["ima-enroll"]), ("help", 64, ["ima-collect", "--help"]),
            ("no kernel", 3, ["ima-collect", "--sys", "none", "made"]),
        ):
            due = self.call(words)
            self.check(f"{title}: the status", due.status, status)
            for settings in given if status == 1 else given[:4]:
                self.check(f"{title}, with {settings}", self.call(words, **settings), due)

    def test_names(self):
        """Names that a shell or a tool could take for something else are names."""
        folder = self.folder / "odd names"
        folder.mkdir()
        fields = {"key": "-x", "quote": "-", "signature": "$(touch called)=-", "log": "-h", "list": "a b\n; touch called"}
        for field, name in fields.items():
            shutil.copy(getattr(GOOD, field), folder / name)
        evidence = replace(GOOD, **fields)
        self.check_match("odd names", self.attest(evidence, folder=folder))
        words = [f"{option}={value}" for option, value in evidence.options()]
        ended = self.call(["ima-attest", *words, "--", evidence.log, evidence.list], folder=folder)
        self.check_match("odd names, in one word with their options", ended)
        self.check("odd names: nothing else was done", sorted(path.name for path in folder.iterdir()), sorted(fields.values()))
        self.check_match("a list from standard input, a file", self.attest_from(GOOD.list, replace(GOOD, list="/dev/stdin")))
        for folder in ("relative", "-odd"):
            (self.folder / folder).mkdir()
            self.check_match(f"a folder for temporary files: {folder}", self.attest(settings={"TMPDIR": folder}))
            self.check(f"nothing is left in {folder}", list((self.folder / folder).iterdir()), [])
        self.check_match("a path of folders for cd", self.attest(settings={"CDPATH": "/:/tmp", "TMPDIR": "relative"}))


class MadeKeys(AttestTests):
    """Keys that openssl makes, and what they sign."""

    needed = ("openssl",)

    def made_key(self, name, *options):
        """The files of a key that openssl makes: the public one, and the signature by it of the sample's message."""
        secret, public, signature = (self.folder / f"{name}.{end}" for end in ("key", "pem", "sig"))
        for words in (["genpkey", *options, "-out", secret], ["pkey", "-in", secret, "-pubout", "-out", public],
                      ["dgst", "-sha256", "-sign", secret, "-out", signature, GOOD.quote]):
            self.check(f"a key is made: {name} {words[0]}", self.call(["openssl", *map(str, words)]).status, 0)
        return {"key": public, "signature": signature}

    def test_others(self):
        """What another key signs is taken by that key alone, and if it signs anything, only as its PEM, which does not say so."""
        others = self.made_key("others", *RSA)
        for name in others:
            self.check_unsigned(f"another key's {name}", self.attest(**{name: others[name]}))
        self.check_match("a key that signs anything is taken as PEM: that it is a restricted one is the caller's to see", self.attest(**others))
        restricted = area_of(others["key"])
        self.check_match("its public area, made up to say that it is restricted", self.attest(**{**others, "key": self.put("made.pub", restricted)}))
        unrestricted = restricted.replace(bytes.fromhex("00050072"), bytes.fromhex("00040072"), 1)
        self.check_key("its public area", self.attest(**{**others, "key": self.put("own.pub", unrestricted)}), 15)
        hashed = ["openssl", "dgst", "-sha1", "-sign", self.folder / "others.key", "-out", others["signature"], GOOD.quote]
        self.check("a signature by SHA-1 is made", self.call(hashed).status, 0)
        self.check_unsigned("a signature by SHA-1", self.attest(**others))
        tpmt = self.put("others.tpmt", bytes.fromhex("001400040100") + others["signature"].read_bytes())
        self.check_unsigned("a signature by SHA-1, which says so", self.attest(**{**others, "signature": tpmt}), OTHER_HASH)

    def test_keys(self):
        """A key is of a kind that a TPM has for quotes, not too short, and alone in its file."""
        bits, curve = "rsa_keygen_bits:{}".format, "ec_paramgen_curve:{}".format
        for size in (2048, 3072, 4096):
            self.check_match(f"RSA of {size} bits", self.attest(**self.made_key(f"rsa{size}", "-algorithm", "RSA", "-pkeyopt", bits(size))))
        for name in ("P-256", "P-384"):
            self.check_match(name, self.attest(**self.made_key(name, "-algorithm", "EC", "-pkeyopt", curve(name))))
        for title, *options in (
            ("RSA of 1024 bits", "-algorithm", "RSA", "-pkeyopt", bits(1024)),
            ("RSA of 2047 bits", "-algorithm", "RSA", "-pkeyopt", bits(2047)),
            ("RSA of 4104 bits", "-algorithm", "RSA", "-pkeyopt", bits(4104)),
            ("RSA with the exponent 65535", "-algorithm", "RSA", "-pkeyopt", bits(2048), "-pkeyopt", "rsa_keygen_pubexp:65535"),
            ("RSA with the exponent 3", "-algorithm", "RSA", "-pkeyopt", bits(2048), "-pkeyopt", "rsa_keygen_pubexp:3"),
            ("P-521", "-algorithm", "EC", "-pkeyopt", curve("P-521")),
            ("another curve", "-algorithm", "EC", "-pkeyopt", curve("secp256k1")),
            ("a short curve", "-algorithm", "EC", "-pkeyopt", curve("P-224")),
            ("an explicit curve", "-algorithm", "EC", "-pkeyopt", curve("P-256"), "-pkeyopt", "ec_param_enc:explicit"),
        ):
            self.check_unsigned(f"a key: {title}", self.attest(**self.made_key(title.replace(" ", "-"), *options)), OTHER_PEM)
        good, other = GOOD.key.read_bytes(), self.made_key("other", *RSA)
        added = other["key"].read_bytes()
        for title, key in (("two keys, the other first", added + good), ("two keys, the other last", good + added), ("text after it", good + b"x\n"),
                           ("other line ends", good.replace(b"\n", b"\r\n")), ("no line end after it", good[:-1]), ("a byte 0 after it", good + b"\0"),
                           ("the secret key", self.folder.joinpath("other.key").read_bytes())):
            for signature in (GOOD.signature, other["signature"]):
                ended = self.attest(key=self.put("odd.pem", key), signature=signature)
                self.check_unsigned(f"a file with {title}, and the signature {signature.name}", ended, OTHER_PEM)
        for title, key, number in (("text before it", b"x\n" + good, 1), ("the key in DER", self.in_der(GOOD.key), 1)):
            for signature in (GOOD.signature, other["signature"]):
                ended = self.attest(key=self.put("odd.pem", key), signature=signature)
                self.check_key(f"a file with {title}, and the signature {signature.name}", ended, number)

    def in_der(self, key):
        self.check("the key in DER", self.call(["openssl", "pkey", "-pubin", "-in", str(key), "-outform", "der", "-out", "key.der"]).status, 0)
        return self.folder.joinpath("key.der").read_bytes()

    def test_salts(self):
        """A signature by RSAPSS has a salt of any length: TPMs differ in that."""
        made = self.made_key("pss", *RSA)
        for algorithm in (SHA256, SHA384, SHA512):
            area = self.put("pss.pub", area_of(made["key"], RSAPSS, algorithm))
            for salt in ("0", "20", "digest", "max"):
                padded = ["-sigopt", "rsa_padding_mode:pss", "-sigopt", f"rsa_pss_saltlen:{salt}"]
                words = ["-sign", self.folder / "pss.key", *padded, "-out", made["signature"], GOOD.quote]
                title = f"a signature by {algorithm.name} with the salt {salt}"
                self.check(f"{title} is made", self.call(["openssl", "dgst", f"-{algorithm.name}", *map(str, words)]).status, 0)
                self.check_match(title, self.attest(**made))
                self.check_match(f"{title}, by the key's area", self.attest(**{**made, "key": area}))
                other = self.put("other.msg", turned(GOOD.quote.read_bytes()))
                self.check_unsigned(f"{title}, of another message", self.attest(**made, quote=other))
