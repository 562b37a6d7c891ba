"""Tests of machines with an emulated TPM. They run the blocks of docs/attest.md on quotes, as these are on the page."""

import os
import re
import shutil
from dataclasses import replace

from authorities import Authority
from calling import (
    ENTRIES,
    LAST_ENTRY,
    LOG,
    LOW,
    NEEDED,
    NO_SIGNATURE,
    NONCE,
    NOT_SIGNED,
    OF_QUOTE,
    OTHER_HASH,
    OTHER_KEY,
    OTHER_PEM,
    OTHER_SCHEME,
    SECOND_KERNEL,
    AttestTests,
    Evidence,
    executable,
    moved,
    turned,
)
from emulated import BOOT, ROOT, emulated, entry_extensions
from lists import EXTENDS_TEN
from reference.measurement_list import Entry, list_spelling
from reference.registers import ALGORITHMS, SHA1, SHA256

LOWEST = "0,1,2,3,4,5,6,7,8,9"
HASHES = ("sha256", "sha384", "sha512")
BLOCK = re.compile(r"^```sh\n(.*?)^```$", re.MULTILINE | re.DOTALL)
NAME = "box"  # the machine's
ENROLLING, EVIDENCE = ["AK.pub", "EK.der", "EK.pub"], ["expected.txt", "firmware.log", "ima.list"]
QUOTED = [*EVIDENCE, "quote.msg", "quote.sig"]


def at(path):
    """A path as bash quotes it."""
    return f"'{path}'"


class MachineTests(AttestTests):
    """Tests of a machine that has booted: its TPM, what its kernel shows, and a folder, and of its verifier's folder. A test finds these as the
    tests before it left them."""

    needed, entries, nonce = NEEDED, ENTRIES, NONCE

    @classmethod
    def setUpClass(cls):
        super().setUpClass()
        cls.home, cls.verifier, cls.sys = cls.folder / "machine", cls.folder / "verifier", cls.folder / "sys"
        cls.keys, cls.shown = cls.verifier / "keys", cls.sys / "kernel/security"
        for made in (cls.home, cls.keys, cls.shown / "tpm0", cls.shown / "ima"):
            made.mkdir(parents=True)
        shutil.copy(BOOT / "firmware.log", cls.shown / "tpm0/binary_bios_measurements")
        cls.has(cls.entries)
        cls.use(cls.enter(emulated(list_spelling(cls.entries))))
        cls.vendor = Authority(cls.folder, "vendor")
        section = re.search(r"^## With a quote\n(.*?)^## ", (ROOT / "docs/attest.md").read_text(), re.MULTILINE | re.DOTALL)[1]
        cls.key_block, cls.challenge_block, cls.answer_block, cls.keep_block, *blocks = BLOCK.findall(section)
        cls.nonce_block, cls.quote_block, cls.verdict_block = blocks
        without = re.search(r"^## Without a quote\n(.*?)^## ", (ROOT / "docs/attest.md").read_text(), re.MULTILINE | re.DOTALL)[1]
        cls.unquoted_block = next(block for block in BLOCK.findall(without) if "ima-agent verify" in block)

    @classmethod
    def has(cls, entries):
        """The list has these entries."""
        cls.shown.joinpath("ima/binary_runtime_measurements").write_bytes(list_spelling(entries))
        cls.shown.joinpath("ima/runtime_measurements_count").write_text(f"{len(entries)}\n")

    def left_in_tpm(self):
        """The objects and sessions in the TPM that do not stay there."""
        kinds = ("transient", "loaded-session", "saved-session")
        return [self.call(["tpm2_getcap", f"handles-{kind}"]).output for kind in kinds]

    def on_machine(self, block, sys=None, **settings):
        """Runs a block on the machine, whose kernel's files are these, with the tools as they are, and sees what is left in the TPM."""
        block = re.sub(r"ima-collect(?! --(?:enroll|credential))", f"ima-collect --sys '{sys or self.sys}'", block)
        self.must("room is made", "tpm2_flushcontext", "--transient-object")
        ended = self.call(["/bin/bash", "-c", block], folder=self.home, **{"PATH": f"{self.bin}:{os.environ['PATH']}", **settings})
        if (left := self.left_in_tpm()) != ["", "", ""]:
            self.check(f"nothing is left in the TPM by {block}", left, ["", "", ""])
        return ended

    def on_verifier(self, block, folder=None, **settings):
        """Runs a block on the verifier, which has no TPM."""
        own = {"keys": str(self.keys), "name": NAME, "vendor": str(self.vendor.certificate), "TPM2TOOLS_TCTI": "none"}
        return self.call(["/bin/bash", "-c", block], folder=folder or self.verifier, **{**own, **settings})

    def send(self, name):
        """Copies a folder of the machine to the verifier."""
        shutil.rmtree(self.verifier / name, ignore_errors=True)
        shutil.copytree(self.home / name, self.verifier / name)

    def give_certificate(self):
        """The TPM gets a certificate of its endorsement key, as its maker gives it."""
        self.must("an endorsement key", "tpm2_createek", "-c", "ek.ctx", "-G", "rsa", "-f", "pem", "-u", "ek.pem")
        certificate = self.vendor.certify(self.home / "ek.pem")
        self.home.joinpath("certificate").write_bytes(certificate)
        flags = "platformcreate|ppwrite|ppread|ownerread|authread|no_da"
        self.must("room for it", "tpm2_nvdefine", "0x1c00002", "-C", "p", "-s", str(len(certificate)), "-a", flags)
        self.must("a certificate", "tpm2_nvwrite", "0x1c00002", "-C", "p", "-i", "certificate")

    def enroll(self, title):
        """The blocks of attest.md by which the machine's key comes to the verifier."""
        self.give_certificate()
        self.check_collected(f"{title}: a key is made", self.on_machine(self.key_block), "enroll", ENROLLING)
        self.send("enroll")
        self.check_made_credential(f"{title}: the TPM is challenged", self.on_verifier(self.challenge_block), "enroll")
        shutil.copy(self.verifier / "enroll/credential", self.home)
        self.check_collected(f"{title}: it answers", self.on_machine(self.answer_block), "answer", ["answer"])
        self.send("answer")
        self.check_enrolled(f"{title}: the key is kept", self.on_verifier(self.keep_block), NAME)

    def check_quiet(self, title, ended, *lines):
        """A call ends well, and says nothing, or these lines on standard error."""
        self.check(title, (ended.status, ended.output, ended.errors), (0, "", "".join(f"{line}\n" for line in lines)))

    def collected(self, folder, names):
        """What ima-collect says of a folder with these files: what it made, and what attest.md has next."""
        blocks = []
        if "EK.der" in names:  # (a machine that sends none does not say that it is to be taken at its word)
            blocks.append(self.challenge_block.replace(" enroll\n", f" {folder}\n"))
        if "answer" in names:
            blocks.append(self.keep_block.replace(" answer/", f" {folder}/"))
        blocks += [block for name, block in (("quote.msg", self.verdict_block), ("firmware.log", self.unquoted_block)) if name in names][:1]
        place = f" in {folder}" if "firmware.log" in names else ""
        starts = [("" if "ima-enroll" in block else place) for block in blocks]
        return [f"ima-collect: {folder} is made, with {' '.join(names)}: send it to the verifier",
                *(f"ima-collect: next, there{start}: {block.strip()}" for start, block in zip(starts, blocks))]

    def check_collected(self, title, ended, folder, names):
        """ima-collect made a folder of this name with these files, and says so."""
        self.check_quiet(title, ended, *self.collected(folder, names))

    def check_made_credential(self, title, ended, sent):
        """ima-enroll made a credential for what a machine sent, and says what attest.md has next."""
        self.check_quiet(title, ended, f"ima-enroll: {at(f'{sent}/credential')} is made: send it to the machine",
                         f"ima-enroll: next, there as root: {self.answer_block.strip()}")

    def check_enrolled(self, title, ended, name="m", keys=None):
        """ima-enroll kept the key of this machine, and says what attest.md has next."""
        asking = f"{self.nonce_block.strip()}; and on the machine, as root: {self.quote_block.strip()}"
        self.check_quiet(title, ended, f"ima-enroll: {name} is enrolled: its key is {at(f'{keys or self.keys}/{name}/{name}.pub')}",
                         f"ima-enroll: next, for each quote: {asking}")

    def verdict(self, **settings):
        """The verdict by attest.md's block, for which the verifier has no openssl."""
        own = {"nonce": self.nonce, "PATH": self.verifier_path}
        return self.on_verifier(self.verdict_block, folder=self.verifier / "evidence", **{**own, **settings})

    def verdict_on_quote(self, title):
        """The verdict on a new quote."""
        shutil.rmtree(self.home / "evidence", ignore_errors=True)
        self.check_collected(f"{title}: the quote", self.on_machine(self.quote_block, nonce=self.nonce), "evidence", QUOTED)
        self.send("evidence")
        return self.verdict()

    @property
    def sent(self):
        """What the machine sent."""
        names = {"quote": "quote.msg", "signature": "quote.sig", "log": "firmware.log", "list": "ima.list"}
        files = {field: self.verifier / "evidence" / name for field, name in names.items()}
        return Evidence(nonce=self.nonce, key=self.keys / NAME / f"{NAME}.pub", **files)

    def make_key(self, name, handle, scheme="rsassa"):
        """Another key of the machine's TPM, at a handle, and its public part, as PEM and as its area."""
        self.must("an endorsement key", "tpm2_createek", "-c", "ek.ctx", "-G", "rsa")
        made = ("-G", "rsa", "-g", "sha256", "-s", scheme, "-u", f"{name}.pem", "-f", "pem")
        self.must(f"a key: {name}", "tpm2_createak", "-C", "ek.ctx", "-c", f"{name}.ctx", *made)
        self.must(f"its area: {name}", "tpm2_readpublic", "-c", f"{name}.ctx", "-o", f"{name}.pub")
        self.must(f"{name} stays", "tpm2_evictcontrol", "-c", f"{name}.ctx", handle)

    def quoted(self, selection, name, handle="0x81010002", nonce=None, scheme="rsassa", hashed="sha256", form="plain"):
        """A quote of other registers, by another key, with another nonce, or with its signature in another form."""
        files = {field: self.home / f"{name}.{end}" for field, end in (("quote", "msg"), ("signature", "sig"))}
        written = ("-m", files["quote"], "-s", files["signature"], "-f", form)
        asked = ("-l", selection, "-q", nonce or self.nonce, "--scheme", scheme, "-g", hashed)
        self.check(f"a quote is made: {name}", self.call(["tpm2_quote", "-c", handle, *asked, *written]).status, 0)
        return files

    def must(self, title, *words):
        """Runs a tool in the machine's folder."""
        ended = self.call(words, folder=self.home)
        self.check(title, None if ended.status == 0 else ended.errors, None)

    def extend(self, title, entries, register=10):
        """Extends a register with what entries extend."""
        words = entry_extensions(list_spelling([entry._replace(register=register) for entry in entries]))
        self.check(title, self.call(["tpm2_pcrextend", *words]).status, 0)


class Machine(MachineTests):
    """A machine after the sample boot."""

    def test_flow(self):
        """The blocks of attest.md, in their order. All other tests go on from here."""
        self.enroll("attest.md")
        ended = self.on_verifier(self.nonce_block)
        nonce = Machine.nonce = ended.output.strip()
        self.check("attest.md: the nonce", (ended.status, bool(re.fullmatch("[0-9a-f]{40}", nonce))), (0, True))
        self.check("attest.md: another nonce each time", self.on_verifier(self.nonce_block).output.strip() != nonce)
        self.check_match("attest.md: the verdict", self.verdict_on_quote("attest.md"))
        self.check_refused("attest.md: no nonce", self.verdict(nonce=""), 64, "--nonce is missing or empty")
        self.check_unread("attest.md: no such machine", self.verdict(name="other"), self.keys / "other/other.pub")
        stale = nonce.translate(str.maketrans("0123456789abcdef", "123456789abcdef0"))
        self.check_fault("attest.md: a stale nonce", self.verdict(nonce=stale), 11)
        ended = self.attest(self.sent, expected=self.verifier / "evidence/expected.txt")
        self.check_match("attest.md: with the registers that the kernel shows", ended)
        self.check("attest.md: these are the quoted ones", "\nexpected confirmed\n" in ended.output)

    def test_missing_files(self):
        """Each input is empty, missing, a folder, or another one."""
        empty, sent, fields = self.put("empty", b""), self.sent, ("key", "quote", "signature")
        self.check_match("what the machine sent", self.attest(sent))
        for name in fields:
            ended = self.attest(sent, **{name: empty})
            if name == "key":
                self.check_key(f"an empty file: {name}", ended, 1)
            else:
                self.check_unsigned(f"an empty file: {name}", ended, *NO_SIGNATURE, NOT_SIGNED)
            for title, path in (("a missing file", self.folder / "none"), ("a folder", self.scratch)):
                self.check_unread(f"{title}: {name}", self.attest(sent, **{name: path}), path)
            for other in {*fields, "list"} - {name}:
                ended = self.attest(sent, **{name: getattr(sent, other)})
                lines = [f"refused: signature fault {number}" for number in (*NO_SIGNATURE, OTHER_SCHEME, OTHER_HASH, NOT_SIGNED)]
                lines = [f"refused: key fault {number}" for number in range(1, 12)] if name == "key" else lines
                self.check_line(f"{name} is the {other}", ended, 2 if name == "key" else 4, *lines)
        ended = self.attest(sent, log=empty)
        self.check("an empty file: log", (ended.status, ended.output), (2, "refused: log fault 1 at event 0\n"))
        self.check_differ("an empty file: list", self.attest(sent, list=empty), "boot_aggregate missing")
        for name in ("log", "list"):
            self.check_unread(f"a missing file: {name}", self.attest(sent, **{name: "none"}), "none")

    def test_foreign_evidence(self):
        """One thing is changed or taken from elsewhere."""
        sent = self.sent
        message = sent.quote.read_bytes()
        self.check_unsigned("a changed hash of the values", self.attest(sent, quote=self.put("changed", turned(message))))
        self.make_key("other", "0x81010003")
        other = self.quoted(f"sha256:{LOWEST},10", "by-other", handle="0x81010003")
        for form in ("pem", "pub"):
            key = self.home / f"other.{form}"
            self.check_unsigned(f"another key: {form}", self.attest(sent, key=key))
            self.check_match(f"another key's quote, by that key: {form}", self.attest(sent, **other, key=key))
        self.check_unsigned("another key's quote", self.attest(sent, **other))
        self.check_unsigned("another key's signature", self.attest(sent, signature=other["signature"]))
        pem = self.keys / NAME / f"{NAME}.pem"
        self.check_match("the key as PEM", self.attest(sent, key=pem))
        self.check_unsigned("the key as PEM, and another key's quote", self.attest(sent, **other, key=pem))
        self.check_fault("an earlier quote", self.attest(sent, **self.quoted(f"sha256:{LOWEST},10", "earlier", nonce=NONCE)), 11)

    def test_other_selections(self):
        """The quote selects other registers."""
        for selection, fault in ((f"sha256:{LOWEST}", 12), ("sha256:none", 8), ("sha256:10", 12), (f"sha1:{LOWEST},10", 12),
                                 ("sha384:all", 12), ("sha256:10,0+sha1:none+sha256:1,2,3,4,5,6,7,8,9", 5),
                                 (f"sha256:{LOWEST},10+sha256:10", 5)):
            self.check_fault(f"a quote of {selection}", self.attest(self.sent, **self.quoted(selection, "other")), fault)
        for selection, quoted in ((f"sha1:none+sha256:{LOWEST},10", LOW), ("sha256:all", f"quoted sha256 {' '.join(map(str, range(24)))}")):
            self.check_match(f"a quote of {selection}", self.attest(self.sent, **self.quoted(selection, "other")), quoted)
        several = self.quoted("sha1:10+sha256:all", "several")
        self.check_differ("a quote of a bank that the log lacks", self.attest(self.sent, **several), "quoted sha1 10")

    def test_other_boots(self):
        """Log or list of another boot, or changed."""
        sent = self.sent
        log, measurements = sent.log.read_bytes(), sent.list.read_bytes()
        for title, changed in (("another log", log.replace(bytes.fromhex("96a296d224f285c6"), bytes.fromhex("96a296d224f285c7"))),
                               ("a log without its last event", log[: log.rindex(b"\x05\0\0\0\x07\0\0\x80")])):
            self.check_differ(title, self.attest(sent, log=self.put("log", changed)), "boot_aggregate wrong")
        aggregate, *others = ENTRIES
        stated = aggregate.payload.replace(bytes.fromhex("0abaf87a7919f164"), bytes.fromhex("0abaf87a7919f165"))
        foreign = aggregate._replace(payload=stated, template_digest=SHA1.hash(stated))
        for title, changed, state in (("a list of another boot", list_spelling([foreign, *others]), "wrong"),
                                      ("a list without its last entry", measurements[:-LAST_ENTRY], "good")):
            self.check_differ(title, self.attest(sent, list=self.put("list", changed)), f"boot_aggregate {state}")
        ended = self.attest(sent, list=self.put("list", measurements.replace(b"/bin/helper", b"/bin/helpex")))
        self.check("a changed list", (ended.status, ended.output), (2, "refused: replay fault 1 at entry 5\n"))

    def test_forged_quotes(self):
        """A restricted key signs a message that no TPM made, unless that begins as one that a TPM made."""
        sent = self.sent
        forged = self.put("forged.msg", b"\0" + sent.quote.read_bytes()[1:])
        self.must("a message is forged", "tpm2_hash", "-C", "o", "-g", "sha256", "-t", "ticket", "-o", "hash", str(forged))
        signed = ("-g", "sha256", "-s", "rsassa", "-f", "plain")
        self.must("it is signed", "tpm2_sign", "-c", "0x81010002", *signed, "-t", "ticket", "-d", "-o", "forged.sig", "hash")
        ended = self.attest(sent, quote=forged, signature=self.home / "forged.sig")
        self.check_fault("a message that no TPM made, signed by the key", ended, 2)
        ended = self.call(["tpm2_hash", "-C", "o", "-g", "sha256", "-t", "ticket", "-o", "hash", str(sent.quote)], folder=self.home)
        words = ["tpm2_sign", "-c", "0x81010002", *signed, "-t", "ticket", "-d", "-o", "again.sig", "hash"]
        self.check("the key does not sign what seems to be its TPM's", self.call(words, folder=self.home).status != 0)

    def test_other_attestations(self):
        """A restricted key also signs what its TPM states of other things than registers, with the nonce as extra data."""
        self.must("room is made", "tpm2_nvdefine", "0x1500016", "-s", "32", "-a", "ownerread|ownerwrite")
        self.must("room is filled", "tpm2_nvwrite", "0x1500016", "-C", "o", "-i", "hash")
        made = ("-c", "made.ctx", "-d", "made.hash", "-t", "made.ticket")
        self.must("an object is made", "tpm2_createprimary", "-C", "o", *made)
        key, plain, nonce = "0x81010002", ("-g", "sha256", "-f", "plain"), ("-q", self.nonce)
        written = ("--attestation", "stated.msg", "-o", "stated.sig")
        for title, *words in (
            ("TPM2_GetTime", "tpm2_gettime", "-c", key, *nonce, *plain, *written),
            ("TPM2_Certify", "tpm2_certify", "-c", "made.ctx", "-C", key, *plain, "-o", "stated.msg", "-s", "stated.sig"),
            ("TPM2_CertifyCreation", "tpm2_certifycreation", "-C", key, *made, *nonce, *plain, *written),
            ("TPM2_NV_Certify", "tpm2_nvcertify", "-C", key, "-c", "o", *nonce, *plain, *written, "0x1500016"),
            ("TPM2_GetCommandAuditDigest", "tpm2_getcommandauditdigest", "-c", key, *nonce, *plain, "-m", "stated.msg", "-s", "stated.sig"),
        ):
            self.must(f"the key signs {title}", *words)
            stated = {"quote": self.home / "stated.msg", "signature": self.home / "stated.sig"}
            self.check_fault(f"{title}, for a quote", self.attest(self.sent, **stated), 2)
            for path in stated.values():
                path.unlink()

    def test_unrestricted_keys(self):
        """A key that is not restricted signs any message. Its public area says so, and is refused. By its PEM a message with all that its TPM would
        say is taken, which only a verifier prevents that keeps no such key; one that does not begin as its TPM's does is refused."""
        self.must("a parent is made", "tpm2_createprimary", "-C", "o", "-c", "parent.ctx")
        free = "fixedtpm|fixedparent|sensitivedataorigin|userwithauth|sign"
        self.must("a key is made", "tpm2_create", "-C", "parent.ctx", "-G", "rsa:rsassa:null", "-a", free, "-c", "free.ctx", "-u", "free.pub")
        self.must("its public part", "tpm2_readpublic", "-c", "free.ctx", "-f", "pem", "-o", "free.pem")
        message = self.sent.quote.read_bytes()
        signed = ("-c", "free.ctx", "-g", "sha256", "-s", "rsassa", "-f", "plain", "-o", "free.sig")
        for title, changed in (("without what a TPM says first", b"\0\0\0\0" + message[4:]),
                               ("of another type", message[:5] + b"\x17" + message[6:])):
            forged = self.put("forged.msg", changed)
            self.must(f"a message {title} is signed", "tpm2_sign", *signed, str(forged))
            given = {"quote": forged, "signature": self.home / "free.sig"}
            self.check_fault(f"a message {title}, by a key that signs anything", self.attest(self.sent, key=self.home / "free.pem", **given), 2)
            self.check_key(f"a message {title}, by the area of that key", self.attest(self.sent, key=self.home / "free.pub", **given), 15)
        self.must("a quote's message is signed", "tpm2_sign", *signed, str(self.sent.quote))
        given = {"signature": self.home / "free.sig"}
        self.check_match("a quote's message, by a key that signs anything", self.attest(self.sent, key=self.home / "free.pem", **given))
        self.check_key("a quote's message, by the area of that key", self.attest(self.sent, key=self.home / "free.pub", **given), 15)

    def test_other_registers(self):
        """Registers that programs can reset or extend have the values that register 10 should have."""
        sent = self.sent
        self.must("register 16 is reset", "tpm2_pcrreset", "16")
        self.extend("register 16 gets the value of register 10", ENTRIES, register=16)
        for selection, fault in (("sha256:16", 12), (f"sha256:{LOWEST},16", 12), (f"sha256:{LOWEST},16+sha256:16", 5)):
            self.check_fault(f"a quote of {selection}", self.attest(sent, **self.quoted(selection, "other")), fault)
        both = self.quoted(f"sha256:{LOWEST},10,16", "both")
        self.check_differ("a quote of register 16, too", self.attest(sent, **both))
        self.check_differ("a quote of register 16, too, which is required", self.attest(sent, require="sha256:0-10,sha256:16", **both))
        log, _ = moved(ENTRIES, len(ENTRIES), register=16)
        ended = self.attest(sent, log=self.put("with-16.log", log), **both)
        self.check_match("a quote of register 16, too, which the log extends", ended, f"{LOW} 16")
        invented, title = [ENTRIES[0], executable(b"/bin/invented")], "register 16 gets the value of an invented list"
        self.must("register 16 is reset again", "tpm2_pcrreset", "16")
        self.extend(title, invented, register=16)
        doubled = self.quoted(f"sha256:{LOWEST},16+sha256:16", "doubled")
        log, _ = moved(invented, 2, register=16)
        forged = replace(sent, **doubled, log=self.put("with-16.log", log), list=self.put("invented.list", list_spelling(invented)))
        self.check_fault("a quote of register 16 twice", self.attest(forged), 5)
        self.check_fault("a quote of register 16 twice, which is required", self.attest(forged, require="sha256:0-10,sha256:16"), 5)
        once = self.quoted(f"sha256:{LOWEST},16", "once")
        self.check_fault("a quote of register 16 for 10", self.attest(forged, **once), 12)
        ended = self.attest(forged, **self.quoted(f"sha256:{LOWEST},10,16", "both"))
        self.check_differ("a quote of register 16 beside 10, with the invented list", ended)

    def test_list_that_went_on(self):
        """The list has one entry more than the register, and then the register has it too."""
        self.has([*ENTRIES, ENTRIES[-1]])
        self.check_differ("the list went on", self.verdict_on_quote("the list went on"))
        ended = self.attest(self.sent, prefix=True)
        self.check_match("the list went on: its prefix", ended)
        self.check("the list went on: how much of it is confirmed", "\nconfirmed 99 of 100 entries\n" in ended.output)
        self.extend("the register has it, too", ENTRIES[-1:])
        self.check_differ("the register went on, and the quote is old", self.verdict())
        self.check_match("the register went on", self.verdict_on_quote("the register went on"))

    def test_log_with_entries(self):
        """The machine began a second kernel; then its log has the entries of the first."""
        self.extend("a second kernel", SECOND_KERNEL)
        entries = [*ENTRIES, ENTRIES[-1], *SECOND_KERNEL]
        self.has(entries)
        self.check_match("a second kernel: the verdict", self.verdict_on_quote("a second kernel"))
        log, rest = moved(entries, 100)
        ended = self.attest(self.sent, log=self.put("forged.log", log), list=self.put("rest.list", rest))
        self.check_differ("the log has the first kernel's entries", ended, EXTENDS_TEN, OF_QUOTE)


class Unmeasured(MachineTests):
    """A machine without a policy: only the boot aggregate extends register 10."""

    entries = ENTRIES[:1]

    def test_events_in_list(self):
        """The list has more: entries of register 11, or an event that the log lacks."""
        aggregate, *others = ENTRIES
        self.enroll("a machine without a policy")

        def attested(title, *more):
            self.has([aggregate, *more])
            return self.verdict_on_quote(title)

        self.check_match("a boot aggregate alone", attested("a boot aggregate alone"))
        padded = attested("another boot", *(entry._replace(register=11) for entry in others))
        self.check_differ("the list of another boot, for register 11", padded, "entry 1 extends 11", OF_QUOTE)
        kernel = b"a kernel that a loader measured"
        measured = self.call(["tpm2_pcrextend", f"9:sha256={SHA256.hash(kernel).hex()}"])
        self.check("a kernel is measured into register 9", measured.status, 0)
        self.check_differ("the log lacks the kernel", attested("the log lacks the kernel"))
        hidden = attested("the list has the kernel", Entry(9, SHA1.hash(kernel), b"x", kernel))
        self.check_differ("the list has the kernel, for register 9", hidden, "entry 1 extends 9", OF_QUOTE)


class Polled(MachineTests):
    """A machine that is asked again and again: the verifier keeps a checkpoint, and gets what is new of the list."""

    def test_poll(self):
        """Each poll begins where the last match ended."""
        self.enroll("a polled machine")
        self.check_match("a polled machine: the first verdict", self.verdict_on_quote("a polled machine"))
        state, following = self.folder / "state", self.folder / "next"
        entries = list(ENTRIES)

        def asked(title, entries, log=LOG.spelling(), quoted=None):
            """A call on a new quote and on what is new of a list with these entries, which goes on from the checkpoint, if there is one."""
            nonce = os.urandom(20).hex()
            given = self.quoted(f"sha256:{LOWEST},10", "polled", nonce=quoted or nonce)
            known = int(re.search(r"^bytes (\d+)$", state.read_text(), re.MULTILINE)[1]) if state.exists() else 0
            more = {"log": self.put("polled.log", log), "list": self.put("more.list", list_spelling(entries)[known:])}
            resume = state if state.exists() else None
            ended = self.attest(self.sent, nonce=nonce, **given, **more, save=following, resume=resume, prefix=True)
            if following.exists():
                following.replace(state)
                self.check(f"{title}: a checkpoint of a match alone", ended.status, 0)
            return ended

        def check_counts(title, ended, line):
            self.check_match(title, ended)
            self.check(f"{title}: how much is confirmed", line in ended.output.splitlines() or ended.output)

        check_counts("the first poll", asked("the first poll", entries), "confirmed 99 of 99 entries")
        check_counts("nothing is new", asked("nothing is new", entries), "confirmed 99 of 99 entries")
        later = [executable(b"/bin/later"), executable(b"/bin/latest")]
        entries += later
        check_counts("the list went on", asked("the list went on", entries), "confirmed 99 of 101 entries")
        self.extend("the register has one more", later[:1])
        check_counts("one more", asked("one more", entries), "confirmed 100 of 101 entries")
        self.extend("the register has the other", later[1:])
        kept = state.read_bytes()
        self.check_differ("an entry is held back", asked("an entry is held back", entries[:-1]))
        self.check_differ("another entry", asked("another entry", [*entries[:-1], executable(b"/bin/other")]))
        stray = asked("an entry of another register", [*entries[:-1], executable(b"/bin/other", 11), entries[-1]])
        self.check_differ("an entry of another register", stray, "entry 100 extends 11", OF_QUOTE)
        self.check_fault("a stale nonce", asked("a stale nonce", entries, quoted=NONCE), 11)
        ended = asked("the log of another boot", entries, log=LOG._replace(events=LOG.events[:-1]).spelling())
        self.check("the log of another boot", (ended.status, ended.output), (2, "refused: checkpoint fault 3\n"))
        self.check("nothing was saved of these", state.read_bytes() == kept)
        check_counts("all", asked("all", entries), "confirmed 101 of 101 entries")


class Keys(MachineTests):
    """Keys of each kind, and quotes of each bank."""

    KEYS = (*(("rsa", hashed, scheme) for scheme in ("rsassa", "rsapss") for hashed in HASHES), ("rsa3072", "sha256", "rsassa"),
            ("rsa3072", "sha384", "rsapss"), *((kind, hashed, "ecdsa") for kind in ("ecc", "ecc384") for hashed in HASHES))
    OTHER = ("ecc521", "sha512", "ecdsa")

    def banked(self, entries):
        """The log with the four banks that the TPM has, which extend what it was extended with, and the list."""
        def widened(event):
            own = event.digest_of(SHA256)
            return event._replace(digests={each.identifier: own if each is SHA256 else each.hash(own) for each in ALGORITHMS})

        declared = {each.identifier: each.size for each in ALGORITHMS}
        log = LOG._replace(declared=declared, events=[widened(event) for event in LOG.events]).spelling()
        return {"log": self.put("banked.log", log), "list": self.put("banked.list", list_spelling(entries))}

    def made(self, kind, hashed, scheme):
        """A key, and a quote of three banks by it with the signature in each form: what the verifier has, by the form."""
        name, selection = f"{kind}-{hashed}-{scheme}", "+".join(f"{bank}:{LOWEST},10" for bank in HASHES)
        made = ("-G", kind, "-g", hashed, "-s", scheme, "-u", f"{name}.pem", "-f", "pem")
        self.must(f"a key: {name}", "tpm2_createak", "-C", "ek.ctx", "-c", f"{name}.ctx", *made)
        self.must(f"its area: {name}", "tpm2_readpublic", "-c", f"{name}.ctx", "-o", f"{name}.pub")
        asked = {"handle": self.home / f"{name}.ctx", "scheme": scheme, "hashed": hashed}
        quotes = {form: self.quoted(selection, f"{name}-{form}", form=form, **asked) for form in ("plain", "tss")}
        return {form: Evidence(nonce=self.nonce, key=self.home / f"{name}.pub", **quote, **self.banked(ENTRIES)) for form, quote in quotes.items()}

    def test_keys(self):
        """A key of each scheme and hash, as area and as PEM, and a quote of three banks by it, with the signature in each form."""
        self.must("an endorsement key", "tpm2_createek", "-c", "ek.ctx", "-G", "rsa")
        early, all_banks = self.put("early.list", list_spelling(ENTRIES[:-1])), ",".join(f"{bank}:0-10" for bank in HASHES)
        files = [evidence for key in self.KEYS for evidence in self.made(*key).values()]
        for number, area in enumerate(files):
            for evidence in (area, replace(area, key=area.key.with_suffix(".pem"))):
                name = f"{evidence.key.name}, {evidence.signature.stem}"
                ended = self.attest(evidence, require=all_banks)
                self.check_match(f"a quote of three banks by a key: {name}", ended)
                found = [line for line in ended.output.splitlines() if line.startswith("quoted ")]
                self.check(f"all banks are quoted: {name}", found, [LOW.replace("sha256", bank) for bank in HASHES])
                self.check_differ(f"a list that lacks its last entry: {name}", self.attest(evidence, list=early))
                message = self.put("changed.msg", turned(evidence.quote.read_bytes()))
                self.check_unsigned(f"a changed message: {name}", self.attest(evidence, quote=message))
                changed = self.put("changed.sig", turned(evidence.signature.read_bytes()))
                self.check_unsigned(f"a changed signature: {name}", self.attest(evidence, signature=changed))
                other = files[number - 2].key.with_suffix(evidence.key.suffix)
                ended = self.attest(evidence, key=other)
                self.check_unsigned(f"a quote by {name}, and the key of another", ended, *NO_SIGNATURE, OTHER_SCHEME, OTHER_HASH, NOT_SIGNED)

    def test_other_keys(self):
        """A key whose signatures are not verified here: the caller verifies them, and says so to ima-agent."""
        self.must("an endorsement key", "tpm2_createek", "-c", "ek.ctx", "-G", "rsa")
        for form, evidence in self.made(*self.OTHER).items():
            self.check_unsigned(f"the area of a key on P-521: {form}", self.attest(evidence), OTHER_KEY)
            self.check_unsigned(f"the PEM of a key on P-521: {form}", self.attest(evidence, key=evidence.key.with_suffix(".pem")), OTHER_PEM)
            if form == "plain":
                words = ["-sha512", "-verify", evidence.key.with_suffix(".pem"), "-signature", evidence.signature, evidence.quote]
                self.must("openssl verifies it", "openssl", "dgst", *map(str, words))
            words = ["--nonce", evidence.nonce, "--require", evidence.require, "--signature-checked"]
            ended = self.call(["ima-agent", "attest", *words, *map(str, (evidence.log, evidence.list, evidence.quote))])
            self.check(f"the caller says so: {form}", (ended.status, ended.last, "signature valid" in ended.output), (0, "verdict match", False))

    def test_banks(self):
        """A bank of each algorithm, alone and with others."""
        self.must("an endorsement key", "tpm2_createek", "-c", "ek.ctx", "-G", "ecc")
        self.must("a key", "tpm2_createak", "-C", "ek.ctx", "-c", "AK.ctx", "-G", "ecc", "-g", "sha256", "-s", "ecdsa", "-u", "AK.pub")
        banked, key = self.banked(ENTRIES), self.home / "AK.pub"

        def attested(selection, require, **changes):
            given = self.quoted(selection, "banks", handle=self.home / "AK.ctx", scheme="ecdsa")
            return self.attest(Evidence(nonce=self.nonce, key=key, require=require, **given, **banked), **changes)

        for bank in ("sha256", "sha384", "sha512"):
            self.check_match(f"a quote of {bank} alone", attested(f"{bank}:{LOWEST},10", f"{bank}:0-10"), LOW.replace("sha256", bank))
        low = LOW.replace("sha256", "sha1")
        self.check_match("a quote of sha1 alone, as is asked for", attested(f"sha1:{LOWEST},10", "sha1:0-10", sha1=True), low)
        self.check_line("a quote of sha1 alone", attested(f"sha1:{LOWEST},10", "sha1:0-10"), 2, "refused: command line")
        ended = attested(f"sha256:{LOWEST}+sha384:10", "sha256:0-9,sha384:10")
        self.check_match("registers of two banks", ended, f"quoted sha256 {LOWEST.replace(',', ' ')}")
        ended = attested(f"sha512:{LOWEST},10+sha256:{LOWEST},10", "sha256:0-10,sha512:0-10")
        self.check_match("banks in another order", ended, LOW.replace("sha256", "sha512"))
        every = "+".join(f"{bank}:all" for bank in ("sha1", "sha256", "sha384", "sha512"))
        every_register = f"quoted sha1 {' '.join(map(str, range(24)))}"
        self.check_match("all registers", attested(every, "sha256:0-23,sha1:0-23,sha384:0-10"), every_register)
        self.check_fault("a required bank that is not quoted", attested(f"sha384:{LOWEST},10", "sha256:0-10"), 12)
        ended = attested(f"sha256:{LOWEST}+sha384:{LOWEST},10", "sha256:0-10")
        self.check_fault("a required register that is quoted in another bank", ended, 12)
        self.check_fault("a bank in two parts", attested(f"sha384:{LOWEST}+sha256:10+sha384:10", "sha384:0-10"), 5)
