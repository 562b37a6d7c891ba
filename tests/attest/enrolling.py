"""Tests of attest/enroll: what a machine sends that is no key of a certified TPM is refused, and only a right answer has a key kept."""

import fcntl
import os
import re
import shutil
import signal
import subprocess
import tempfile
import termios
import time
from concurrent.futures import ThreadPoolExecutor
from dataclasses import replace
from pathlib import Path

from authorities import Authority
from calling import GOOD, LOG, SECONDS, SHORT_READS, AttestTests, executable, values_after
from emulated import emulated
from reference.measurement_list import list_spelling
from reference.registers import SHA256
from tpm import ENROLLING, NAME, MachineTests

# Attributes of a key, by TPM 2.0 Library part 2, TPMA_OBJECT.
FIXED_TPM, FIXED_PARENT, MADE_BY_TPM, WITH_AUTH, WITH_POLICY, RESTRICTED, DECRYPT, SIGN = (1 << bit for bit in (1, 4, 5, 6, 7, 16, 17, 18))
ATTESTING = FIXED_TPM | FIXED_PARENT | MADE_BY_TPM | WITH_AUTH | RESTRICTED | SIGN
RSASSA_SHA256, NO_SCHEME = "0014000b", "0010"
AES_128_CFB = bytes.fromhex("000600800043")
# Neither waits forever nor writes a file of more than 1 MiB.
LIMITED = f'ulimit -f 1024 && exec timeout {SECONDS // 2} "$@"'
MOST_PROCESSOR_SECONDS = 15  # of a challenge
USAGE = "\nusage: ima-enroll --keys"
ROUNDS = 70_000  # by which a PKCS#12 derives a key from its password
# Faults of a key, by docs/errors.txt.
CUT, TRAILING, WEAK_NAME, LEAVES_TPM, UNRESTRICTED, SHORT = 1, 10, 11, 12, 15, 16
DOES_NOT_SIGN, DECRYPTS, NO_SIGNING_SCHEME, WEAK_HASH, SIGNS = 17, 18, 19, 20, 21


def framed(area):
    return len(area).to_bytes(2, "big") + area


def rsa_area(modulus, attributes=ATTESTING, scheme=RSASSA_SHA256, policy=b""):
    """The public area of an RSA key, by TPM 2.0 Library part 2, TPMT_PUBLIC."""
    number, bits = bytes.fromhex(modulus), len(modulus) * 4
    return framed(b"\0\x01\0\x0b" + attributes.to_bytes(4, "big") + framed(policy) + bytes.fromhex("0010" + scheme) + bits.to_bytes(2, "big")
                  + bytes(4) + framed(number))


def container(folder, certificate, password, *words):
    """A PKCS#12 with a certificate, whose password is derived in ROUNDS rounds."""
    made = ["openssl", "pkcs12", "-export", "-nokeys", "-iter", str(ROUNDS), "-passout", f"pass:{password}", *words]
    folder.joinpath("contained.pem").write_bytes(subprocess.run(["openssl", "x509", "-inform", "der"], input=certificate, check=True,
                                                                capture_output=True).stdout)
    return subprocess.run([*made, "-in", folder / "contained.pem"], check=True, capture_output=True).stdout


def slowed(data):
    """A PKCS#12 with 2,147,483,647 rounds wherever it has ROUNDS: the number has a byte more then, and the salt before it one less."""
    salted = re.compile(b"\x04([\x08\x10])(.{8,16}?)" + re.escape(b"\x02\x03" + ROUNDS.to_bytes(3, "big")), re.DOTALL)
    changed, count = salted.subn(lambda found: b"\x04" + bytes([found[1][0] - 1]) + found[2][1:] + b"\x02\x04\x7f\xff\xff\xff", data)
    assert count and len(changed) == len(data)
    return changed


class SoftwareKey:
    """A key that is in no TPM, and that an attacker has."""

    def __init__(self, folder, bits=2048):
        self.secret, self.public = folder / f"software{bits}.key", folder / f"software{bits}.pem"
        for words in (["genrsa", "-out", self.secret, str(bits)], ["rsa", "-in", self.secret, "-pubout", "-out", self.public]):
            subprocess.run(["openssl", *words], check=True, capture_output=True)
        said = subprocess.run(["openssl", "rsa", "-in", self.secret, "-noout", "-modulus"], check=True, capture_output=True, text=True)
        self.modulus = said.stdout.strip().partition("=")[2]

    def area(self, **settings):
        return rsa_area(self.modulus, **settings)


class EnrollTests(MachineTests):
    """Tests of what a machine sent: the folder that its ima-collect made."""

    @property
    def waiting(self):
        return sorted(path.name for path in self.keys.iterdir())

    def begin(self):
        """The machine's key is made, and comes to the verifier."""
        self.give_certificate()
        self.check_collected("a key is made", self.on_machine(self.key_block), "enroll", ENROLLING)
        self.good = {path.name: path.read_bytes() for path in self.home.joinpath("enroll").iterdir()}
        type(self).good = self.good
        self.check("what is sent", sorted(self.good), ["AK.pub", "EK.der", "EK.pub"])

    def lay_out(self, files):
        """A folder with what the machine sent, but for these files, of which None are not there."""
        folder = self.verifier / "sent"
        shutil.rmtree(folder, ignore_errors=True)
        folder.mkdir()
        for name, data in {**self.good, **files}.items():
            if data is not None:
                folder.joinpath(name).write_bytes(data)
        return folder

    def challenge(self, name="m", by=None, settings=None, folder=None, **files):
        """A challenge by what a machine sent, but for these files, whose names have _ for a dot."""
        folder = folder or self.lay_out({each.replace("_", "."): data for each, data in files.items()})
        words = ["ima-enroll", "--keys", str(self.keys), *(by or ["--ca", str(self.vendor.certificate)]), "--", name, str(folder)]
        return self.call(["bash", "-c", LIMITED, "bash", *words], TPM2TOOLS_TCTI="none", **(settings or {}))

    def answer(self, data, name="m", **settings):
        """A call with the answer."""
        answer = self.put(f"answer of {name}", data)
        return self.call(["ima-enroll", "--keys", str(self.keys), "--answer", str(answer), "--", name], **settings)

    def opened(self, title, is_opened=True, credential=None):
        """What the machine's TPM makes of the credential."""
        self.home.joinpath("credential").write_bytes(credential or self.verifier.joinpath("sent/credential").read_bytes())
        shutil.rmtree(self.home / "answer", ignore_errors=True)
        ended = self.on_machine(self.answer_block)
        self.check(f"{title}: whether the machine's TPM opens it", ended.status, 0 if is_opened else 3)
        return self.home.joinpath("answer/answer").read_bytes() if is_opened else b""

    def check_challenged(self, title, ended, name="m"):
        self.check_made_credential(f"{title}: a credential is made", ended, self.verifier / "sent")
        self.check(f"{title}: it waits for its answer", f".{name}" in self.waiting)

    def check_not(self, title, ended, status, words):
        """A call is refused, and neither keeps nor changes anything."""
        self.check(title, (ended.status, ended.output, words in ended.errors or ended.errors), (status, "", True))
        self.check(f"{title}: nothing is kept", [name for name in self.waiting if name.lstrip(".").startswith("m")], [])
        self.check(f"{title}: no credential is made", self.verifier.joinpath("sent/credential").is_file(), False)

    def check_kept(self, title, name, public):
        """The key of this public area is kept, as the TPM's tools tell of it, and nothing besides."""
        kept = {path.name: path.read_bytes() for path in (self.keys / name).iterdir()}
        self.must(f"{title}: its PEM", "tpm2_readpublic", "-c", "0x81010002", "-f", "pem", "-o", "told.pem")
        self.must(f"{title}: its endorsement key", "tpm2_createek", "-c", "ek.ctx", "-G", "rsa", "-f", "pem", "-u", "told.ek.pem")
        told = {f"{name}.{kind}": self.home.joinpath(f"told.{kind}").read_bytes() for kind in ("pem", "ek.pem")}
        self.check(title, kept, {f"{name}.pub": public, **told})

    def forget(self, name="m"):
        for kept in (name, f".{name}"):
            shutil.rmtree(self.keys / kept, ignore_errors=True)


class Enrolled(EnrollTests):
    """A machine that is enrolled, while others try to be."""

    def test_attack(self):
        """A software key's PEM comes with the TPM's key: what is kept is the TPM's, and a quote that the software key signs is refused."""
        self.begin()
        software = SoftwareKey(self.folder)
        type(self).software = software
        pem = software.public.read_bytes()
        left = {"AK_pem": pem, "EK_pem": pem, "m_pem": pem, "AK_name": b"000b", "secret": bytes(32), "credential": b"", "answer_sha256": b""}
        self.check_challenged("a PEM beside the key", self.challenge(**left))
        self.check_enrolled("it is answered", self.answer(self.opened("a PEM beside the key")))
        self.check_kept("the TPM's key is kept", "m", self.good["AK.pub"])
        entries = [*self.entries[:1], executable(b"/bin/invented")]
        message = GOOD.quote.read_bytes()[:-32] + SHA256.hash(b"".join(values_after(entries, LOG)))
        made = {"quote": self.put("forged.msg", message), "list": self.put("forged.list", list_spelling(entries))}
        forged = replace(GOOD, **made, signature=self.folder / "forged.sig")
        signed = ["openssl", "dgst", "-sha256", "-sign", str(software.secret), "-out", str(forged.signature), str(forged.quote)]
        self.check("a quote is forged", self.call(signed).status, 0)
        self.check_match("it is taken with the software key", self.attest(forged, key=software.public))
        for kept in ("m/m.pub", "m/m.pem"):
            self.check_unsigned(f"it is refused with the key that is kept: {kept}", self.attest(forged, key=self.keys / kept))
        self.forget()

    def test_software_keys(self):
        """A key that is in no TPM, whatever its public area says."""
        software = self.software
        for title, fault, area in (
            ("a software key that says so", LEAVES_TPM, software.area(attributes=WITH_AUTH | SIGN)),
            ("a software key that is restricted", LEAVES_TPM, software.area(attributes=WITH_AUTH | SIGN | RESTRICTED | MADE_BY_TPM)),
            ("a software key without a scheme", NO_SIGNING_SCHEME, software.area(scheme=NO_SCHEME)),
            ("a software key that decrypts, too", DECRYPTS, software.area(attributes=ATTESTING | DECRYPT)),
            ("a short software key", SHORT, SoftwareKey(self.folder, 1024).area()),
            ("a PEM for a public area", CUT, software.public.read_bytes()),
            ("two public areas", TRAILING, self.good["AK.pub"] + software.area()),
            ("an empty public area", CUT, b""),
        ):
            self.check_not(title, self.challenge(AK_pub=area), 2, f"AK.pub is not accepted: refused: key fault {fault}\n")
        for title, area in (
            ("a software key that says what a TPM's would", software.area()),
            ("a software key with an empty policy", software.area(attributes=ATTESTING & ~WITH_AUTH | WITH_POLICY, policy=bytes(32))),
            ("the machine's key with another modulus", rsa_area(software.modulus, int.from_bytes(self.good["AK.pub"][6:10], "big"))),
        ):
            self.check_challenged(title, self.challenge(AK_pub=area))
            credential = self.verifier.joinpath("sent/credential").read_bytes()
            self.opened(title, False)
            self.check(f"{title}: nor does it with that key loaded", self.activates_with(area, credential), False)
            self.check(f"{title}: no answer", self.answer(bytes(32)).status, 4)
            self.check(f"{title}: nothing is kept", self.waiting, [])

    def activates_with(self, area, credential):
        """Whether the TPM opens a credential for a key of which only the public area was loaded, by its password or its policy."""
        self.home.joinpath("loaded.pub").write_bytes(area)
        self.home.joinpath("credential").write_bytes(credential)
        script = """
            flush() { tpm2_flushcontext --transient-object; tpm2_flushcontext --loaded-session; tpm2_flushcontext --saved-session; }
            tpm2_createek -c ek.ctx -G rsa && tpm2_loadexternal -C n -u loaded.pub -c loaded.ctx && flush || exit 9
            for auth in '' session:empty.ctx; do
                tpm2_startauthsession --policy-session -S empty.ctx && tpm2_startauthsession --policy-session -S session.ctx &&
                    tpm2_policysecret -S session.ctx -c e || exit 9
                tpm2_activatecredential -c loaded.ctx -p "$auth" -C ek.ctx -i credential -o stolen -P session:session.ctx && exit 0
                flush
            done
            exit 1"""
        self.home.joinpath("stolen").unlink(missing_ok=True)
        ended = self.call(["bash", "-c", script], folder=self.home)
        self.check("the key's public area is loaded", ended.status in (0, 1) or ended.errors)
        return ended.status == 0 or self.home.joinpath("stolen").exists()

    def test_keys_of_the_tpm(self):
        """Keys that the machine's TPM made, and that attest nothing."""
        made = "fixedtpm|fixedparent|sensitivedataorigin|userwithauth"
        for title, fault, kind, hashed, attributes in (
            ("an unrestricted key", UNRESTRICTED, "rsa2048:rsassa-sha256:null", "sha256", f"{made}|sign"),
            ("a key that may be copied", LEAVES_TPM, "rsa2048:rsassa-sha256:null", "sha256", "sensitivedataorigin|userwithauth|restricted|sign"),
            ("a decrypting key", DOES_NOT_SIGN, "rsa2048:null:aes128cfb", "sha256", f"{made}|restricted|decrypt"),
            ("a key that signs by SHA-1", WEAK_HASH, "rsa2048:rsassa-sha1:null", "sha256", f"{made}|restricted|sign"),
            ("a key whose name is by SHA-1", WEAK_NAME, "rsa2048:rsassa-sha256:null", "sha1", f"{made}|restricted|sign"),
        ):
            self.must(title, "tpm2_createprimary", "-C", "o", "-G", kind, "-g", hashed, "-a", attributes, "-c", "other.ctx")
            self.must(f"{title}: its area", "tpm2_readpublic", "-c", "other.ctx", "-o", "other.pub")
            area = self.home.joinpath("other.pub").read_bytes()
            self.check_not(title, self.challenge(AK_pub=area), 2, f"AK.pub is not accepted: refused: key fault {fault}\n")
        for title, name, other, fault in (("the endorsement key", "AK.pub", "EK.pub", DOES_NOT_SIGN),
                                          ("an attestation key", "EK.pub", "AK.pub", SIGNS)):
            ended = self.challenge(**{name.replace(".", "_"): self.good[other]})
            self.check_not(f"{title} for {name}", ended, 2, f"{name} is not accepted: refused: key fault {fault}\n")

    def test_other_tpms(self):
        """Keys and certificates of another TPM of the same maker."""
        with emulated() as environment:
            folder = self.folder / "foreign"
            folder.mkdir()
            script = """
                tpm2_createek -c ek.ctx -G rsa -u EK.pub && tpm2_readpublic -c ek.ctx -f pem -o EK.pem &&
                    tpm2_createak -C ek.ctx -c ak.ctx -G rsa -g sha256 -s rsassa -u AK.pub"""
            self.check("another TPM's keys", subprocess.run(["bash", "-c", script], cwd=folder, env=environment, capture_output=True).returncode, 0)
            foreign = {name: folder.joinpath(name).read_bytes() for name in ("EK.pub", "AK.pub")}
            foreign["EK.der"] = self.vendor.certify(folder / "EK.pem")
            self.check_challenged("a key of another TPM", self.challenge(AK_pub=foreign["AK.pub"]))
            credential = self.verifier.joinpath("sent/credential").read_bytes()
            self.opened("a key of another TPM", False)
            folder.joinpath("credential").write_bytes(credential)
            script = """
                tpm2_startauthsession --policy-session -S session.ctx && tpm2_policysecret -S session.ctx -c e && tpm2_flushcontext -t &&
                    { tpm2_activatecredential -c ak.ctx -C ek.ctx -i credential -o answer -P session:session.ctx || exit 8; }"""
            ended = subprocess.run(["bash", "-c", script], cwd=folder, env=environment, capture_output=True)
            self.check("nor does that TPM open it", ended.returncode, 8)
            self.forget()
        for name in ("EK.der", "EK.pub"):
            files = {name.replace(".", "_"): foreign[name]}
            self.check_not(f"{name} of another TPM", self.challenge(**files), 4, "the certificate is of another key")

    def test_forged_endorsement_keys(self):
        """Of EK.pub the key alone is used: with other parameters in it the credential is what it would be, and the machine's TPM opens it."""
        area = self.good["EK.pub"][2:]
        self.check("the parameters are there", area.count(AES_128_CFB), 1)
        for title, changed in (
            ("no cipher", area.replace(AES_128_CFB, bytes.fromhex("0010"))),
            ("a cipher of 0 bits", area.replace(AES_128_CFB, bytes.fromhex("000600000043"))),
            ("a cipher of 256 bits", area.replace(AES_128_CFB, bytes.fromhex("000601000043"))),
            ("names by SHA-384", area[:2] + b"\0\x0c" + area[4:]), ("another policy", area[:10] + bytes(32) + area[42:]),
        ):
            self.check_challenged(f"EK.pub with {title}", self.challenge(EK_pub=framed(changed)))
            self.check_enrolled(f"EK.pub with {title}: the answer is right", self.answer(self.opened(f"EK.pub with {title}")))
            self.forget()
        self.check_challenged("EK.pub without its size", self.challenge(EK_pub=area))
        self.check_enrolled("EK.pub without its size: the answer is right", self.answer(self.opened("EK.pub without its size")))
        self.forget()

    def test_certificates(self):
        """Certificates that are not the maker's, and the files of authorities."""
        stranger, folder = Authority(self.folder, "stranger"), self.folder
        self.must("the endorsement key", "tpm2_createek", "-c", "ek.ctx", "-G", "rsa", "-f", "pem", "-u", "ek.pem")
        public = self.home / "ek.pem"
        root = Authority(folder, "root")
        middle, weak = Authority(folder, "middle", root), Authority(folder, "weak", bits=1024)

        def by(name, *authorities, first=b""):
            path = self.put(f"{name}.pem", first + b"".join(each.certificate.read_bytes() for each in authorities))
            return ["--ca", str(path)]

        own, no_issuer = {"EK_der": stranger.certify(public)}, "unable to get local issuer certificate"
        for title, files, given, words in (
            ("a certificate of a stranger", own, None, no_issuer),
            ("a certificate of another authority than that in the file", {}, by("stranger-only", stranger), no_issuer),
            ("an expired certificate", {"EK_der": self.vendor.certify(public, days=-1)}, None, "has expired"),
            ("a certificate signed by SHA-1", {"EK_der": self.vendor.certify(public, hashed="sha1")}, None, "digest algorithm too weak"),
            ("an authority with a short key", {"EK_der": weak.certify(public)}, by("weak", weak), "key too weak"),
            ("a certificate of an intermediate authority", {"EK_der": middle.certify(public)}, by("root", root), no_issuer),
            ("an intermediate authority alone", {"EK_der": middle.certify(public)}, by("middle", middle), "unable to get issuer certificate"),
            ("no certificate in EK.der", {"EK_der": self.good["AK.pub"]}, None, "EK.der is no certificate"),
            ("an empty EK.der", {"EK_der": b""}, None, "EK.der is no certificate"),
            ("an empty file of authorities", {}, by("empty"), "the certificate: "),
            ("the authority's own certificate", {"EK_der": self.der_of(self.vendor)}, None, "the certificate is of another key"),
        ):
            self.check_not(title, self.challenge(by=given, **files), 4, words)
        for title, files, status in (("no EK.der", {"EK_der": None}, 3), ("no AK.pub", {"AK_pub": None}, 3), ("no EK.pub", {"EK_pub": None}, 3)):
            self.check_not(title, self.challenge(**files), status, "no regular file has this name")
        trusted = folder / "trusted"
        trusted.mkdir()
        name = self.call(["openssl", "x509", "-in", str(stranger.certificate), "-noout", "-hash"]).output.strip()
        shutil.copy(stranger.certificate, trusted / f"{name}.0")
        settings = {"SSL_CERT_FILE": str(stranger.certificate), "SSL_CERT_DIR": str(trusted)}
        self.check_not("whom the system trusts", self.challenge(settings=settings, **own), 4, no_issuer)
        shown = self.challenge(EK_der=stranger.certify(public, subject="/CN=a\x1b[2J\u009b2J\n"))
        is_one_line = shown.errors.count("\n") == 1 and shown.errors.rstrip("\n").isprintable()
        self.check("a certificate's name that a terminal obeys", (shown.status, is_one_line or shown.errors), (4, True))
        for title, files, given in (
            ("a file with several authorities", {}, by("several", stranger, middle, self.vendor, root)),
            ("an authority after 100 KB of others", {}, by("long", self.vendor, first=stranger.certificate.read_bytes() * 100)),
            ("an intermediate authority and its root", {"EK_der": middle.certify(public)}, by("chain", middle, root)),
            ("a certificate with zeros after it, as TPMs keep it", {"EK_der": self.good["EK.der"] + bytes(500)}, None),
            ("in hand, without a certificate", {"EK_der": None}, ["--in-hand"]),
            ("in hand, and a certificate of a stranger", own, ["--in-hand"]),
        ):
            self.check_challenged(title, self.challenge(by=given, **files))
            self.forget()

    def test_containers(self):
        """What is no certificate but holds one: it is refused at once, and nobody is asked for a password."""
        folder, certificate = self.folder, self.good["EK.der"]
        for title, data in (
            ("with a password", container(folder, certificate, "password")), ("with an empty password", container(folder, certificate, "")),
            ("without encryption", container(folder, certificate, "", "-certpbe", "NONE", "-keypbe", "NONE", "-nomac")),
            ("of so many rounds that it takes minutes", slowed(container(folder, certificate, ""))),
        ):
            title = f"a PKCS#12 {title}, with the right certificate"
            begun = os.times().children_user
            self.check_not(title, self.challenge(EK_der=data), 4, "EK.der is no certificate")
            self.check(f"{title}: at once", os.times().children_user - begun < MOST_PROCESSOR_SECONDS)
            self.check(f"{title}: at a terminal", self.asked_at_terminal(EK_der=data), (4, ""))
        self.check("a certificate, at a terminal", self.asked_at_terminal(), (0, ""))
        self.forget()

    def asked_at_terminal(self, **files):
        """The status of a challenge where there is a terminal, and what it asks there."""
        words = ["ima-enroll", "--keys", str(self.keys), "--ca", str(self.vendor.certificate), "m"]
        words.append(str(self.lay_out({each.replace("_", "."): data for each, data in files.items()})))
        primary, terminal = os.openpty()
        with os.fdopen(primary, "rb", buffering=0) as shown:
            process = subprocess.Popen(words, env={**self.environment, "TPM2TOOLS_TCTI": "none"}, stdin=subprocess.DEVNULL,
                                       stdout=subprocess.DEVNULL, stderr=subprocess.DEVNULL, start_new_session=True,
                                       preexec_fn=lambda: fcntl.ioctl(terminal, termios.TIOCSCTTY, 0))
            try:
                status = process.wait(SECONDS / 2)
            except subprocess.TimeoutExpired:  # (it waits for an answer)
                os.killpg(process.pid, signal.SIGKILL)
                status = process.wait()
            os.set_blocking(primary, False)
            said = shown.read(1000) or b""
            os.close(terminal)
            return status, said.decode()

    @staticmethod
    def der_of(authority):
        return subprocess.run(["openssl", "x509", "-in", authority.certificate, "-outform", "der"], check=True, capture_output=True).stdout

    def test_answers(self):
        """An answer is taken once, and only the right one."""
        self.check_challenged("a challenge", self.challenge())
        first = self.opened("a challenge")
        self.check("the answer has 32 bytes", len(first), 32)
        self.check("KEYS has no secret", [path for path in (self.keys / ".m").iterdir() if first in path.read_bytes()], [])
        self.check("what waits is for its owner alone", (self.keys / ".m").stat().st_mode & 0o777, 0o700)
        self.check_challenged("a challenge again", self.challenge())
        second = self.opened("a challenge again")
        for title, wrong in (("the answer to the challenge before", first), ("an empty answer", b""), ("a shorter answer", second[:-1]),
                             ("a longer answer", second + b"\0"), ("a long answer", second + bytes(64)), ("zeros", bytes(32))):
            self.check_challenged(title, self.challenge())
            right = self.opened(title)
            wrong = wrong if wrong in (first, b"", bytes(32)) else right + wrong[32:] if len(wrong) > 32 else right[:-1]
            self.check_not_kept(title, self.answer(wrong))
            ended = self.answer(right)
            self.check(f"{title}: and then the right one", (ended.status, "no credential for m waits" in ended.errors), (3, True))
        for name in ("m", "n"):
            self.check_challenged(f"two names: {name}", self.challenge(name), name)
            self.put(f"{name}.answer", self.opened(f"two names: {name}"))
        answers = [self.folder.joinpath(f"{name}.answer").read_bytes() for name in ("m", "n")]
        self.check_not_kept("the secret of another name", self.answer(answers[1], "m"))
        self.check_enrolled("and the right one", self.answer(answers[1], "n"), "n")
        self.check_kept("it is kept", "n", self.good["AK.pub"])
        for title, ended in (("a challenge for a name that is enrolled", self.challenge("n")), ("an answer for one", self.answer(answers[1], "n"))):
            self.check(title, (ended.status, "n is enrolled" in ended.errors, ended.output), (64, True, ""))
        self.check_kept("it is still kept", "n", self.good["AK.pub"])
        self.forget("n")
        ended = self.answer(answers[1], "n")
        self.check("an answer that is used twice", (ended.status, "no credential for n waits" in ended.errors, self.waiting), (3, True, []))

    def check_not_kept(self, title, ended):
        self.check(title, (ended.status, ended.output, "the answer is wrong" in ended.errors or ended.errors), (4, "", True))
        self.check(f"{title}: nothing is kept", [path for path in self.waiting if path.endswith("m")], [])

    def test_other_names(self):
        """A TPM that is enrolled gets no other name, until its own is removed."""
        for first, second in (("m", "n"), ("m.ek", "m"), ("m", "m.ek")):
            title = f"{first}, and then {second}"
            for name in (first, second):
                self.check_challenged(f"{title}: {name}", self.challenge(name), name)
                self.put(f"{name}.answer", self.opened(f"{title}: {name}"))
            first_answer, late = (self.folder.joinpath(f"{name}.answer").read_bytes() for name in (first, second))
            self.check_enrolled(f"{title}: the first", self.answer(first_answer, first), first)
            self.check_refused_for(f"{title}: its answer", self.answer(late, second), first)
            ended = self.challenge(second)
            self.check_refused_for(f"{title}: its challenge", ended, first)
            self.check(f"{title}: no credential", self.verifier.joinpath("sent/credential").is_file(), False)
            self.check_refused_for(f"{title}: in hand", self.challenge(second, by=["--in-hand"]), first)
            (self.keys / "a").mkdir()
            ended = self.challenge(second)
            self.check(f"{title}: after a folder without keys", (ended.status, f"enrolled as {first}: " in ended.errors), (4, True))
            (self.keys / "a").rmdir()
            self.check_kept(f"{title}: the first is kept", first, self.good["AK.pub"])
            other = rsa_area(self.software.modulus, FIXED_TPM | FIXED_PARENT | MADE_BY_TPM | RESTRICTED | DECRYPT, NO_SCHEME)
            self.check_challenged(f"{title}: another endorsement key", self.challenge(second, by=["--in-hand"], EK_pub=other), second)
            self.forget(first)
            self.check_challenged(f"{title}: after it was removed", self.challenge(second), second)
            self.check_enrolled(f"{title}: after it was removed, the answer", self.answer(self.opened(title), second), second)
            self.check_kept(f"{title}: the second is kept", second, self.good["AK.pub"])
            self.forget(second)
        self.keys.joinpath("x/x.ek.pem").mkdir(parents=True)
        self.check_not("an endorsement key that cannot be read", self.challenge(), 3, "x/x.ek.pem")
        shutil.rmtree(self.keys / "x")

    def at_once(self, title, call, *arguments):
        """How such calls end, of which none moves anything into KEYS before each other is about to, too, or waits for its turn."""
        arrived = Path(tempfile.mkdtemp(dir=self.folder))
        note, here = f"echo >'{arrived}'/$PPID", f"here=('{arrived}'/*)"
        wait = f"while {here}; (({'${#here[@]}'} < {len(arguments)} && SECONDS < {SECONDS // 2})); do sleep 0.05; done"
        moving = self.stand_in("mv", f'[[ {"${*: -1}"} == waiting ]] || {{ {note}; {wait}; }}; exec "$real" "$@"')["PATH"].partition(":")[0]
        locking = self.stand_in("flock", f'{note}; exec "$real" "$@"')["PATH"]
        with ThreadPoolExecutor(len(arguments)) as calls:
            ended = list(calls.map(lambda argument: call(argument, {"PATH": f"{moving}:{locking}"}), arguments))
        self.check(f"{title}: each call came to where it waits", len(list(arrived.iterdir())), len(arguments))
        return ended

    def test_at_once(self):
        """Of right answers by one TPM for several names, which come at once, one is kept."""
        names, answers = ("a", "b", "c", "d"), {}
        for name in names:
            self.check_challenged(f"at once: {name}", self.challenge(name), name)
            answers[name] = self.opened(f"at once: {name}")
        ended = self.at_once("at once", lambda name, settings: self.answer(answers[name], name, **settings), *names)
        self.check("at once: the statuses", sorted(each.status for each in ended), [0, 4, 4, 4])
        kept = next(name for name, each in zip(names, ended) if each.status == 0)
        self.check("at once: what the others say", [f"this TPM is enrolled as {kept}: " in each.errors for each in ended].count(True), 3)
        self.check("at once: one name", self.waiting, [kept])
        self.check_kept("at once: its key is kept", kept, self.good["AK.pub"])
        for name in names:
            self.forget(name)
        folder, title = self.lay_out({}), "challenges for one name at once"
        ended = self.at_once(title, lambda folder, settings: self.challenge(folder=folder, settings=settings), folder, folder)
        self.check(f"{title}: the statuses", [each.status for each in ended], [0, 0])
        self.check_enrolled(f"{title}: what the machine gets is what waits", self.answer(self.opened(title)))
        self.forget()

    def test_modes(self):
        """Whoever may read the caller's files may read what is kept, and nobody else may write it."""
        for mask in (0o022, 0o077, 0o027):
            before = os.umask(mask)
            try:
                self.check_challenged(f"the mask {mask:03o}", self.challenge())
                right = self.opened(f"the mask {mask:03o}")
                self.check_enrolled(f"the mask {mask:03o}: the answer", self.answer(right))
            finally:
                os.umask(before)
            kept = self.keys / "m"
            modes = {path.name: oct(path.stat().st_mode & 0o7777) for path in (kept, *kept.iterdir())}
            files = dict.fromkeys(("m.pem", "m.pub", "m.ek.pem"), oct(0o666 & ~mask))
            self.check(f"the mask {mask:03o}: modes of what is kept", modes, {"m": oct(0o777 & ~mask), **files})
            self.forget()

    def check_refused_for(self, title, ended, first):
        """A call is refused, since the TPM is enrolled by this name, which alone is there."""
        said = f"this TPM is enrolled as {first}: "
        self.check(title, (ended.status, ended.output, said in ended.errors or ended.errors, self.waiting), (4, "", True, [first]))

    def test_answer_files(self):
        """What is no regular file is no answer, and one can be given after it."""
        self.check_challenged("a challenge", self.challenge())
        right, pipe = self.opened("a challenge"), self.folder / "a pipe"
        os.mkfifo(pipe)
        linked = self.folder / "linked"
        linked.symlink_to(self.put("right", right))
        links = [(f"a link to {path.name}", self.folder / f"to {path.name}", path) for path in (self.keys / ".m").iterdir()]
        for _, link, path in links:
            link.symlink_to(path)
        for title, path in (("a pipe", pipe), ("a link", linked), ("a folder", self.scratch), ("no file", self.folder / "none"),
                            ("a device", "/dev/zero"), *((title, link) for title, link, _ in links)):
            ended = self.call(["timeout", str(SECONDS // 2), "ima-enroll", "--keys", str(self.keys), "--answer", str(path), "m"])
            self.check(f"an answer: {title}", (ended.status, "no regular file has this name" in ended.errors), (3, True))
        for path in (self.keys / ".m").iterdir():
            self.check(f"the content of {path.name} is no answer", path.read_bytes() == right, False)
        answer = self.put("answer", bytes(32))
        swapping = self.stand_in("dd", f"ln -sf '{self.folder}/right' '{answer}'; exec \"$real\" \"$@\"")
        ended = self.call(["ima-enroll", "--keys", str(self.keys), "--answer", str(answer), "m"], **swapping)
        self.check("an answer becomes a link", (ended.status, "cannot read" in ended.errors, self.waiting), (3, True, [".m"]))
        answer.unlink()
        self.check_enrolled("the right one", self.answer(right))
        self.forget()

    def test_files(self):
        """A machine's files are regular ones, and are not read beyond what they can be."""
        pipe, folder = self.folder / "pipe", self.verifier / "sent"
        os.mkfifo(pipe)
        swapping = self.stand_in("dd", 'name=${1#if=}; [[ ! -e $name.swap ]] || { rm "$name"; mkfifo "$name"; }; exec "$real" "$@"')
        linking = self.stand_in("dd", 'name=${1#if=}; [[ ! -e $name.other ]] || ln -sf "$name.other" "$name"; exec "$real" "$@"')
        for name in ("AK.pub", "EK.pub", "EK.der"):
            for title, make in (("a link", lambda path: path.symlink_to(self.home / "enroll" / path.name)), ("a pipe", os.mkfifo),
                                ("a link to a pipe", lambda path: path.symlink_to(pipe)), ("a folder", Path.mkdir),
                                ("a link to a device", lambda path: path.symlink_to("/dev/zero"))):
                self.lay_out({name: None})
                make(folder / name)
                self.check_not(f"{name} is {title}", self.challenge(folder=folder), 3, f"{name}': no regular file has this name")
            self.lay_out({f"{name}.swap": b""})
            ended = self.challenge(folder=folder, settings=swapping)
            self.check(f"{name} becomes a pipe", (ended.status in (2, 4), self.waiting), (True, []))
            self.lay_out({f"{name}.other": self.good[name]})
            self.check_not(f"{name} becomes a link", self.challenge(folder=folder, settings=linking), 3, f"cannot read '{folder}/{name}'")
            self.lay_out({})
            with open(folder / name, "ab") as file:
                file.truncate(1 << 40)
            ended = self.challenge(folder=folder)
            if name == "EK.der":
                self.check_challenged("a certificate with zeros after it", ended)
                self.forget()
            else:
                self.check_not(f"{name} of a terabyte", ended, 2, f"{name} is not accepted: refused: key fault {TRAILING}")
        for given in (pipe, self.scratch, "/dev/zero", "none"):
            self.check_not(f"authorities: {given}", self.challenge(by=["--ca", str(given)]), 3, "no regular file has this name")
        link = self.folder / "vendor link"
        link.symlink_to(self.vendor.certificate)
        self.check_challenged("a link to the file of authorities", self.challenge(by=["--ca", str(link)]))
        self.forget()
        removing = self.stand_in("dd", '"$real" "$@" || exit; [[ $2 == of=ca ]] || rm "${1#if=}"')
        self.check_challenged("each file is gone once it is copied", self.challenge(settings=removing))
        self.forget()
        short = self.stand_in("dd", SHORT_READS)
        self.check_challenged("each read is short", self.challenge(settings=short))
        right = self.opened("each read is short")
        self.check_enrolled("each read is short: the answer", self.answer(right, **short))
        self.forget()

    def test_written(self):
        """The credential takes the place of a link that a machine sent, and nothing is written elsewhere."""
        victim, folder = self.put("victim", b"as it was"), self.lay_out({})
        folder.joinpath("credential").symlink_to(victim)
        self.check_challenged("credential is a link", self.challenge(folder=folder))
        self.check("what it led to", (victim.read_bytes(), folder.joinpath("credential").is_symlink()), (b"as it was", False))
        self.forget()
        other, folder = self.folder / "another folder", self.lay_out({})
        other.mkdir()
        folder.joinpath("credential").symlink_to(other)
        self.check_challenged("credential is a link to a folder", self.challenge(folder=folder))
        self.check("what the link led to", ([*other.iterdir()], folder.joinpath("credential").is_symlink()), ([], False))
        self.forget()
        folder = self.lay_out({})
        folder.joinpath("credential").mkdir()
        self.check_not("credential is a folder", self.challenge(folder=folder), 3, "cannot be written")
        self.check_challenged("a challenge before it", self.challenge())
        right = self.opened("a challenge before it")
        folder = self.lay_out({})
        folder.joinpath("credential").mkdir()
        ended = self.challenge(folder=folder)
        self.check("credential is a folder, and one waits", (ended.status, "cannot be written" in ended.errors, self.waiting), (3, True, [".m"]))
        self.check_enrolled("what waits still does", self.answer(right))
        self.forget()
        self.check_challenged("a challenge before KEYS/NAME comes", self.challenge())
        coming = self.stand_in("flock", f"mkdir '{self.keys}/m' && touch '{self.keys}/m/kept'; exec \"$real\" \"$@\"")
        ended = self.answer(self.opened("a challenge before KEYS/NAME comes"), **coming)
        found = (ended.status, "m cannot be kept" in ended.errors or ended.errors, [path.name for path in self.keys.joinpath("m").iterdir()])
        self.check("KEYS/NAME comes while the answer is judged, and stays as it is", found, (3, True, ["kept"]))
        self.forget()
        self.keys.joinpath("m").symlink_to(self.folder / "none")
        ended = self.challenge()
        self.check("KEYS/NAME is a link that leads nowhere", (ended.status, "m is enrolled" in ended.errors), (64, True))
        self.keys.joinpath("m").unlink()
        for title, keys, said in (("not there", "none", "there is no folder "), ("a file", str(victim), "there is no folder "),
                                  ("where no folder is made", "/proc", "no folder can be made in ")):
            ended = self.call(["ima-enroll", "--keys", keys, "--in-hand", "m", str(self.lay_out({}))])
            self.check(f"KEYS is {title}", (ended.status, said in ended.errors or ended.errors, ended.errors.count("\n")), (3, True, 1))

    def test_names(self):
        """Names of machines are plain, and names of files any."""
        for name in ("", ".", "..", ".m", "-m", "m/m", "/m", "m m", "m\n", "\nm", "m\nm", "é", "m*", "_m", "m" * 101, "m+abcdef"):
            ended = self.challenge(name)
            self.check(f"the name {name!r}", (ended.status, USAGE in ended.errors, self.waiting), (64, True, []))
        for end in ("pem", "pub", "ek.pem", "PEM", "Pub"):
            name, said = f"m.{end}", "a name ends in neither .pem nor .pub"
            self.check_not(f"the name {name}", self.challenge(name), 64, said)
            self.check_challenged(f"the name {name}, as if it waited", self.challenge())
            right = self.opened(f"the name {name}, as if it waited")
            for kind in ("pem", "pub", "ek.pem"):
                self.keys.joinpath(f".m/m.{kind}").rename(self.keys / f".m/{name}.{kind}")
            self.keys.joinpath(".m").rename(self.keys / f".{name}")
            ended = self.answer(right, name)
            self.check(f"the name {name}: an answer", (ended.status, said in ended.errors or ended.errors, self.waiting), (64, True, [f".{name}"]))
            self.forget(name)
        for name in ("A", "9", "m.example-1_x", "m" * 100, "pem", "m.pem2", "pub.m"):
            self.check_challenged(f"the name {name}", self.challenge(name), name)
            self.forget(name)
        top = self.folder / "odd names"
        top.mkdir()
        keys, sent, vendor, answer = "-k", "$(touch called) *", "file:v", "-a"
        top.joinpath(keys).mkdir()
        shutil.copytree(self.lay_out({}), top / sent)
        shutil.copy(self.vendor.certificate, top / vendor)
        ended = self.call(["ima-enroll", f"--keys={keys}", "--ca", vendor, "m", sent], folder=top, TPM2TOOLS_TCTI="none")
        self.check_made_credential("odd names", ended, sent)
        top.joinpath(answer).write_bytes(self.opened("odd names", credential=top.joinpath(sent, "credential").read_bytes()))
        ended = self.call(["ima-enroll", "--keys", keys, "--answer", answer, "m"], folder=top)
        self.check_enrolled("odd names: the answer", ended, keys=top / keys)
        self.check("odd names: what is there", sorted(path.name for path in top.iterdir()), sorted((keys, sent, vendor, answer)))
        kept = sorted(path.name for path in top.joinpath(keys, "m").iterdir())
        self.check("odd names: the key is kept", kept, ["m.ek.pem", "m.pem", "m.pub"])

    def test_kinds(self):
        """Attestation keys of other kinds, and an endorsement key on a curve."""
        for title, endorsing, *made in (
            ("ECDSA", "rsa", "-G", "ecc", "-g", "sha256", "-s", "ecdsa"), ("RSAPSS", "rsa", "-G", "rsa", "-g", "sha256", "-s", "rsapss"),
            ("SHA-384", "rsa", "-G", "ecc384", "-g", "sha384", "-s", "ecdsa"),
            ("an endorsement key on a curve", "ecc", "-G", "rsa", "-g", "sha256", "-s", "rsassa"),
        ):
            self.must(f"{title}: EK", "tpm2_createek", "-c", "kind-ek.ctx", "-G", endorsing, "-u", "kind-ek.pub")
            self.must(f"{title}: EK in PEM", "tpm2_readpublic", "-c", "kind-ek.ctx", "-f", "pem", "-o", "kind-ek.pem")
            self.must(f"{title}: AK", "tpm2_createak", "-C", "kind-ek.ctx", "-c", "kind.ctx", *made, "-u", "kind.pub")
            areas = {"AK_pub": self.home.joinpath("kind.pub").read_bytes(), "EK_pub": self.home.joinpath("kind-ek.pub").read_bytes()}
            self.check_challenged(title, self.challenge(EK_der=self.vendor.certify(self.home / "kind-ek.pem"), **areas))
            shutil.copy(self.verifier / "sent/credential", self.home)
            self.must(f"{title}: room", "tpm2_flushcontext", "--transient-object")
            self.must(f"{title}: a session", "tpm2_startauthsession", "--policy-session", "-S", "session.ctx")
            self.must(f"{title}: its policy", "tpm2_policysecret", "-S", "session.ctx", "-c", "e")
            opened = ("-c", "kind.ctx", "-C", "kind-ek.ctx", "-i", "credential", "-o", "kind.answer", "-P", "session:session.ctx")
            self.must(f"{title}: it is opened", "tpm2_activatecredential", *opened)
            self.must(f"{title}: the session ends", "tpm2_flushcontext", "session.ctx")
            self.check_enrolled(f"{title}: the answer", self.answer(self.home.joinpath("kind.answer").read_bytes()))
            self.must(f"{title}: in PEM", "tpm2_readpublic", "-c", "kind.ctx", "-f", "pem", "-o", "kind.pem")
            self.check(f"{title}: what is kept", (self.keys / "m/m.pem").read_bytes() == self.home.joinpath("kind.pem").read_bytes())
            self.forget()

    def test_steps(self):
        """A step that fails, or says less than it should, ends the call, and nothing is kept."""
        for title, tool, body in (
            ("the verification prints OK, and fails", "openssl", '[[ $1 != verify ]] || { echo "EK.crt: OK"; exit 1; }; exec "$real" "$@"'),
            ("the verification says nothing", "openssl", '[[ $1 != verify ]] || exit 0; exec "$real" "$@"'),
            ("the verification is killed", "openssl", '[[ $1 != verify ]] || { echo "EK.crt: OK"; kill -KILL $$; }; exec "$real" "$@"'),
            ("the certificate has no key", "openssl", '[[ $* != *-pubkey* ]] || exit 0; exec "$real" "$@"'),
            ("no credential is made", "tpm2_makecredential", "exit 1"),
            ("a credential is not there", "tpm2_makecredential", "exit 0"),
            ("a credential is empty", "tpm2_makecredential", "true >credential"),
            ("an error with status 0", "tpm2_makecredential", 'echo ERROR: no cipher >&2; exec "$real" "$@"'),
            ("KEYS cannot be locked", "flock", "exit 1"), ("no copy is made", "dd", "exit 1"), ("no folder is made", "mktemp", "exit 1"),
            ("nothing is moved", "mv", "exit 1"),
            ("no hash is made", "sha256sum", "exit 1"), ("the credential is not written", "cp", '[[ $1 != --remove* ]] || exit 1; exec "$real" "$@"'),
        ):
            ended = self.challenge(settings=self.stand_in(tool, body))
            self.check(f"a step: {title}", (ended.status in (3, 4), self.waiting), (True, []))
        for title, body in (("there is no randomness", "exit 1"), ("the secret is empty", '{ : >"$3"; exit; }'),
                            ("the secret is short", 'exec "$real" rand -out "$3" 31')):
            settings = self.stand_in("openssl", f'[[ $1 != rand ]] || {body}; exec "$real" "$@"')
            for by in (None, ["--in-hand"]):
                self.check_not(f"a step: {title}: {by}", self.challenge(by=by, settings=settings), 3, "no secret could be made")
        ended = self.challenge(by=["--in-hand"], settings=self.stand_in("tpm2_makecredential", "echo a sentence; exit 1"))
        self.check_not("a step: no credential is made, in hand", ended, 4, "no credential can be made for EK.pub: 'a sentence'")
        for title, body, status in (("refuses with another line", "[[ $1 != key ]] || { echo name; exit 2; }", 2), ("is killed", "kill -KILL $$", 3),
                                    ("has status 1", "[[ $1 != key ]] || exit 1", 3), ("lacks memory", "[[ $1 != key ]] || exit 3", 3),
                                    ("says nothing", "[[ $1 != key ]] || exit 0", 4)):
            with self.other_agent(body):
                ended = self.challenge()
            self.check(f"ima-agent {title}", (ended.status, self.waiting), (status, []))
        self.check_challenged("a challenge", self.challenge())
        right = self.opened("a challenge")
        for tool in ("dd", "mktemp", "flock"):
            words = ["ima-enroll", "--keys", str(self.keys), "--answer", str(self.put("answer", right)), "m"]
            self.check(f"an answer, and {tool} fails", (self.call(words, **self.stand_in(tool, "exit 1")).status, self.waiting), (3, [".m"]))
        for tool in ("sha256sum", "mv"):
            self.check_challenged(f"a challenge: {tool}", self.challenge())
            words = ["ima-enroll", "--keys", str(self.keys), "--answer", str(self.put("answer", self.opened(tool))), "m"]
            ended = self.call(words, **self.stand_in(tool, '[[ ${*: -1} != waiting ]] || exec "$real" "$@"; exit 1'))
            self.check(f"a right answer, and {tool} fails", (ended.status in (3, 4), self.keys.joinpath("m").exists()), (True, False))
            self.forget()

    def test_stopped(self):
        """A call that is stopped leaves nothing, and has no status of success."""
        called = self.folder / "called"
        settings = self.stand_in("tpm2_makecredential", f"echo > '{called}'; sleep 1")
        words = ["ima-enroll", "--keys", str(self.keys), "--in-hand", "m", str(self.lay_out({}))]
        process = subprocess.Popen(words, env={**self.environment, **settings}, stderr=subprocess.DEVNULL, start_new_session=True)
        end = time.monotonic() + SECONDS
        while not called.exists() and time.monotonic() < end:
            time.sleep(0.05)
        process.terminate()
        self.check("a call that is stopped", (process.wait(SECONDS) in (0, 1), list(self.keys.iterdir())), (False, []))


class EnrollCalls(AttestTests):
    """Wrong calls."""

    def test_wrong_calls(self):
        """A wrong call is refused before anything is read."""
        keys = self.folder / "keys"
        keys.mkdir()
        good = ["--keys", str(keys), "--in-hand", NAME, str(self.folder)]
        for title, words in (
            ("no arguments", []), ("no KEYS", good[2:]), ("an empty KEYS", ["--keys=", *good[2:]]), ("KEYS twice", [*good, "--keys", "a"]),
            ("neither", [*good[:2], *good[3:]]), ("both", [*good, "--ca", "a"]), ("an answer and in hand", [*good, "--answer", "a"]),
            ("an answer and a CA", [*good[:2], "--ca", "a", "--answer", "a", NAME]), ("in hand twice", [*good, "--in-hand"]),
            ("an answer without a name", [*good[:2], "--answer", "a"]), ("an answer with a folder", [*good[:2], "--answer", "a", *good[3:]]),
            ("no folder", good[:-1]), ("an empty folder", [*good[:-1], ""]), ("two folders", [*good, "a"]), ("an unknown option", [*good, "-x"]),
            ("a value for --in-hand", ["--in-hand=1", *good]), ("--ca without a value", [*good[:2], *good[3:], "--ca"]),
            ("no name", [*good[:3], "", good[4]]),
        ):
            ended = self.call(["ima-enroll", *words])
            self.check(f"a wrong call: {title}", (ended.status, ended.output, USAGE in ended.errors or ended.errors), (64, "", True))
        for title, words in (("a challenge", ["--keys=none", "--ca=a", NAME, "b"]), ("an answer", ["--keys=none", "--answer=a", NAME])):
            ended = self.call(["ima-enroll", *words])
            self.check(f"no wrong call: {title}, with options as one word each", (ended.status, ended.output, USAGE in ended.errors), (3, "", False))
        for asked in (["--help"], ["-h"], [*good, "--help"]):
            ended = self.call(["ima-enroll", *asked])
            told = [word in ended.output or word for word in ("--keys", "--ca", "--in-hand", "--answer", "credential", " 0 ", " 64 ")]
            self.check(f"help: {asked[-1]}", (ended.status, told, ended.errors), (64, [True] * 7, ""))
        ended = self.call(["ima-enroll", "--version"])
        self.check("the version", (ended.status, ended.output.startswith("ima-agent "), ended.errors), (64, True, ""))
        self.check("an output that fails", self.call(["bash", "-c", "ima-enroll --help >/dev/full"]).status, 3)
        self.check("nothing is made", list(keys.iterdir()), [])

    def test_locale(self):
        """A name has no letters but those of ASCII, in a locale, too, whose ranges have others."""
        self.needs("localedef")
        locales = self.folder / "locales"
        locales.mkdir()
        made = self.call(["localedef", "-i", "en_US", "-f", "UTF-8", str(locales / "en_US.UTF-8")])
        if not locales.joinpath("en_US.UTF-8/LC_COLLATE").is_file():
            self.lacks(f"sources of locales ({made.errors.partition(chr(10))[0]})")
        settings = {"LOCPATH": str(locales), "LC_ALL": "en_US.UTF-8"}
        for name in ("\u00e9", "\u00df", "box-\u00e9"):
            ranged = self.call(["bash", "-c", "[[ $1 =~ ^[A-Za-z0-9][A-Za-z0-9._-]{0,99}$ ]]", "bash", name], **settings)
            self.check(f"the name {name}: a range of that locale has it", ranged.status, 0)
            ended = self.call(["ima-enroll", "--keys", str(self.folder), "--in-hand", name, str(self.folder)], **settings)
            self.check(f"the name {name}", (ended.status, "a name begins with a letter" in ended.errors or ended.errors), (64, True))

    def test_lacking(self):
        """A tool that is not there."""
        keys = self.folder / "some keys"
        keys.mkdir()
        words = ["--keys", str(keys), "--in-hand", NAME, str(self.folder)]
        needed = {"readlink", "mktemp", "dd", "rm", "openssl", "tpm2_makecredential", "flock"}
        self.needs(*needed)
        for tool in ("openssl", "tpm2_makecredential", "flock", "mktemp"):
            lacking = self.folder / f"without {tool}"
            lacking.mkdir()
            for each in needed - {tool}:
                lacking.joinpath(each).symlink_to(shutil.which(each))
            ended = self.call([str(self.bin / "ima-enroll"), *words], PATH=str(lacking))
            self.check(f"no {tool}", (ended.status, ended.output, list(keys.iterdir())), (3, "", []))
        self.agent.unlink()
        self.addCleanup(self.agent.symlink_to, self.program)
        ended = self.call(["ima-enroll", *words])
        self.check("no ima-agent", (ended.status, "ima-agent is not there" in ended.errors), (3, True))
