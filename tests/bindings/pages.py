"""The programs of the bindings' pages: what they read, and what they must print."""

import base64
import hashlib
import re

import inputs
from harness import ROOT
from reference.log import Event, Log, read_log
from reference.measurement_list import BOOT_AGGREGATE, IMA_NG, VIOLATION, entry_of, list_spelling, replay
from reference.registers import ALGORITHMS, SHA1, SHA256

SAMPLE, QUOTED = ROOT / "samples/real-boot", ROOT / "samples/quoted"
FILES = "firmware.log", "ima.list", "expected.txt"

# The example of Go's page is a function, which this calls with the files that the other pages' programs read.
GO_CALL = """package main

import (
	"fmt"
	"log"
	"os"

	"imaverify"
)

func main() {
	var files [][]byte
	for _, name := range []string{"AK.pub", "nonce", "quote.msg", "quote.sig", "firmware.log", "ima.list"} {
		data, _ := os.ReadFile(name)
		files = append(files, data)
	}
	verdict, err := attested(files[0], string(files[1]), files[2], files[3], files[4], files[5])
	if err != nil {
		log.Fatal(err)
	}
	fmt.Println(verdict.Conclusion, verdict.Entries)
}

"""


def page_of(language):
    """The example of a language's page, as a program."""
    page = (ROOT / "bindings" / language / "README.md").read_text()
    example, = re.findall(rf"^```{language}(?:,no_run)?\n(.*?)^```", page, re.MULTILINE | re.DOTALL)
    return (GO_CALL if language == "go" else "") + example


def quoting_area():
    """The public area of the key that signed the sample's quote: RSASSA with SHA-256 (TPM 2.0 Library, part 2, TPM2B_PUBLIC)."""
    info = base64.b64decode(b"".join((QUOTED / "AK.pem").read_bytes().splitlines()[1:-1]))
    modulus = info[-5 - 256:-5]  # (after it: the exponent)
    area = bytes.fromhex("0001000b0005007200000010" "0014000b" "0800" "00000000" "0100") + modulus
    return len(area).to_bytes(2, "big") + area


def quote_inputs(folder):
    """Folders with what the programs of a quote read, each with what they must print: a line, or as a pattern a part of an error."""
    files = {name: (QUOTED / name).read_bytes() for name in ("quote.msg", "quote.sig", "nonce")}
    files |= {"AK.pub": quoting_area(), **{name: (SAMPLE / name).read_bytes() for name in FILES}}
    message, pem = files["quote.msg"], (QUOTED / "AK.pem").read_bytes()
    for name, changes, wanted in (
        ("a boot", {}, "match 99\n"),
        ("a key as PEM", {"AK.pub": pem}, "match 99\n"),
        ("a TPMT_SIGNATURE", {"quote.sig": (QUOTED / "quote.tpmt").read_bytes()}, "match 99\n"),
        ("a shorter list", {"ima.list": files["ima.list"][:-95]}, "differ 98\n"),
        ("another nonce", {"nonce": b"00" * 20 + b"\n"}, "nonce is not the one given"),
        ("another message", {"quote.msg": message[:-1] + bytes([message[-1] ^ 1])}, "did not sign the message"),
        ("another key", {"AK.pub": (ROOT / "samples/keys/ak-rsassa.pub").read_bytes()}, "did not sign the message"),
        ("no signature", {"quote.sig": b""}, "signature is cut short"),
        ("no key", {"AK.pub": message}, "public area is cut short"),
        ("an empty key", {"AK.pub": b""}, "public area is cut short"),
        ("a PEM that is cut", {"AK.pub": pem[:-1]}, "PEM file has an unsupported kind of key"),
    ):
        (folder / name).mkdir(parents=True)
        for file, data in {**files, **changes}.items():
            (folder / name / file).write_bytes(data)
        yield folder / name, wanted


def banks_inputs():
    """A boot with banks of all algorithms: log, list, and the sample's quote, but of this boot's PCRs 0 to 10 of SHA-256."""
    log = inputs.made_log(ALGORITHMS, 24)
    entries, registers = inputs.made_entries(log, inputs.made_measurements(3)), log.registers()
    replay(registers, entries)
    digest = SHA256.hash(b"".join(registers.value(SHA256, register) for register in range(11)))
    return log.spelling(), list_spelling(entries), (QUOTED / "quote.msg").read_bytes()[:-SHA256.size] + digest  # (the digest is its end)


def older_inputs():
    """The list of a kernel before 5.8 in the sample's boot, whose boot aggregate is over PCRs 0 to 7 alone; PCRs 0 to 10 after it; and their quote."""
    log = read_log((SAMPLE / FILES[0]).read_bytes())
    entries, registers = [entry_of(IMA_NG, SHA256, log.registers().old_boot_aggregate(SHA256), BOOT_AGGREGATE)], log.registers()
    replay(registers, entries)
    values = [registers.value(SHA256, register) for register in range(11)]
    lines = "".join(f"sha256 {register} {value.hex()}\n" for register, value in enumerate(values)).encode()
    return list_spelling(entries), lines, (QUOTED / "quote.msg").read_bytes()[:-SHA256.size] + SHA256.hash(b"".join(values))


def old_log():
    """A log in the SHA-1 form with two events, and the crypto-agile log of these (docs/formats.md)."""
    made, parts = Log({SHA1.identifier: SHA1.size}, []), []
    for register, kind, data in ((0, 8, b"1\0"), (4, 4, bytes(4))):
        digest = SHA1.hash(data)
        parts += [*(number.to_bytes(4, "little") for number in (register, kind)), digest, len(data).to_bytes(4, "little"), data]
        made.events.append(Event(register, kind, {SHA1.identifier: digest}, data))
    return b"".join(parts), made.spelling()


def header_files(folder):
    """A folder with the files that header.c reads: the sample boot, and what its inputs are changed to."""
    keys, known = ROOT / "samples/keys", ROOT / "samples/known"
    paths = {"log": SAMPLE / FILES[0], "list": SAMPLE / FILES[1], "expected": SAMPLE / FILES[2], "printed": SAMPLE / "tpm2_pcrread.txt",
             "message": QUOTED / "quote.msg", "area": keys / "ak-rsassa.pub", "pem": keys / "ak-rsassa.pem", "files": known / "SHA256SUMS",
             "earlier": known / "before-violations.expected", **{file.name: file for file in (ROOT / "samples/signed").glob("*.*")}}
    files = {name: path.read_bytes() for name, path in paths.items()}
    log, entries, lines, message = files["log"], files["list"], files["expected"].splitlines(True), files["message"]
    last = entries[-95:]
    # (type, one digest, by SHA-256, which is of zeros; and no data)
    event, hcrtm = (b"".join(value.to_bytes(size, "little") for value, size in ((kind, 4), (1, 4), (11, 2), (0, 32), (0, 4)))
                    for kind in (13, 0x80000010))
    hcrtm_log = log + bytes(4) + hcrtm
    # (register 0, EV_NO_ACTION without digests, and TCG_EfiStartupLocalityEvent)
    told_log = hcrtm_log + b"".join(value.to_bytes(4, "little") for value in (0, 3, 0, 17)) + b"StartupLocality\0\4"
    told_pcr = read_log(told_log).registers().value(SHA256, 0)
    sha1_log, made_log = old_log()
    older_list, older_lines, older_message = older_inputs()
    files |= dict(zip(("banks_log", "banks_list", "banks_message"), banks_inputs()))
    files |= {"nonce": bytes.fromhex((QUOTED / "nonce").read_text()), "x": b"x", "weak": b"3f786850e387550fdab836ed7e6dc881de23001b  a\n",
              "last": last, "strayed": entries[:-95] + b"\x0b" + last[1:] + last, "first": lines[0], "tenth": lines[10],
              "other_list": entries[:-20] + bytes([entries[-20] ^ 1]) + entries[-19:], "other_message": message[:-1] + bytes([message[-1] ^ 1]),
              "ascii": (SAMPLE / "ima.ascii").read_bytes(), "padded_log": log + 5 * b"\xff", "sha1_log": sha1_log, "from_sha1_log": made_log,
              "older_list": older_list, "older_pcrs": older_lines, "older_message": older_message,
              "hcrtm_log": hcrtm_log, "told_log": told_log, "told_pcrs": f"sha256 0 {told_pcr.hex()}\n".encode(),
              **{f"log{number}": log + number.to_bytes(4, "little") + event for number in (9, 10)}}
    folder.mkdir()
    for name, data in files.items():
        (folder / name).write_bytes(data)
    return folder


def doc_samples():
    """The files that Rust's doc tests read, by name: a small boot whose registers 0 to 10 match, with one violation; and a key's public area."""
    measured = [(0, 8, b"1\0"), *((register, 4, bytes(4)) for register in range(8)), (9, inputs.EV_EVENT_TAG, b"kernel")]
    events = [Event(register, kind, {SHA256.identifier: SHA256.hash(data)}, data) for register, kind, data in measured]
    log = Log({SHA256.identifier: SHA256.size}, events)
    files = [(path, hashlib.sha256(path.rpartition(b"/")[2]).digest()) for path in (b"/sbin/init", b"/bin/helper")]
    entries = inputs.made_entries(log, [*files, (b"/var/log/open", bytes(SHA256.size))])
    entries[-1] = entries[-1]._replace(template_digest=VIOLATION)
    expected = inputs.expected_text(inputs.expected_after(log, entries)[:11])
    return {**dict(zip(FILES, (log.spelling(), list_spelling(entries), expected))), "AK.pub": (ROOT / "samples/keys/ak-p256.pub").read_bytes()}
