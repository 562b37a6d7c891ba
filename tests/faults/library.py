#!/usr/bin/env python3
"""Refuses each allocation in turn through each function of the verifier's library for C, on the samples and changes of them.

tests/faults/library.py [PROGRAM ARCHIVE]: the program and the static library that the toolchain made; without them, those of this tree,
which `dist/library` builds first if they are not there or are older than a source.

The answers that are wanted, and the checkpoints, are those of the program to the same files. Each function of the header is called with each
input, in both forms, and with buffers that have room to spare, just enough, and too little; entries and events come by pieces. In the Nth
turn the Nth allocation is refused (tests/faults/library.c, which gives the library its memory), until a turn ends with none refused. A call
must have the answer, or say that memory ran out. It must tell the error of its text, and write nothing but that, and nothing to a
checkpoint's buffer if memory ran out. It must give back, once, all memory that it took, and have the answer when it is made again. A function
that takes no memory at all fails, and so does one that takes it elsewhere, a crash, and a run of more than a minute. Needs cc and nm."""

import re
import subprocess
import sys
from dataclasses import dataclass
from itertools import product
from pathlib import Path

sys.path[:0] = [str(Path(__file__).resolve().parents[1]), str(Path(__file__).resolve().parents[2] / "dist")]
import harness  # noqa: E402
from harness import PROGRAM, ROOT  # noqa: E402
from header import VERSION, functions_of  # noqa: E402
from reference.attestations import attest_report  # noqa: E402
from reference.checkpoint import read_checkpoint  # noqa: E402
from reference.log import read_log  # noqa: E402
from reference.measurement_list import BOOT_AGGREGATE, IMA_NG, entry_of, list_spelling  # noqa: E402
from reference.registers import SHA256  # noqa: E402
from sweep import check_runs  # noqa: E402

SECONDS = 60
MEMORY = b"failed: memory\n"
JSON_MEMORY = b'{"fault":{"kind":"memory","message":"failed: memory"}}\n'
# The command of each function that has another name, and the option that the last of its inputs is the value of.
COMMANDS = {"entries": "show", "verdict": "verify", "registers:list": "replay", "key:endorsement": "key --endorsement", "convert:list": "list",
            "convert:log": "log"}
OPTIONS = {"verdict": "--require", "locate": "--require", "replay": "--require", "expected": "--registers"}
# The program's status where nothing is attested, what it then prints of a quote or a signature that it refuses, and the library's results.
NOT_ATTESTED, QUOTE_REFUSED = 4, re.compile(rb"refused: (?:quote|signature) fault")
DIFFERS, REFUSED = 1, 2
# The first 97 entries of the sample's list, and the first three.
PREFIX_BYTES, THREE_ENTRIES_BYTES = 11731, 292
FEW_LINES = 8
# The function that no command has.
ERROR_TEXT = "ima_verify_error_text"
# What the library takes where the program has no `--require`.
NONE_REQUIRED = b"none"
REPLACED = {"rattle_alloc", "rattle_realloc", "rattle_dealloc"}
ELSEWHERE = {"malloc", "calloc", "realloc", "reallocarray", "free", "posix_memalign", "aligned_alloc", "memalign", "valloc"}
ELSEWHERE |= {"mmap", "munmap", "mremap", "brk", "sbrk", "strdup", "strndup"}


@dataclass
class Case:
    """A function, as library.c names it, what it is given, and the files of that, of which the last may have an option's value, or after that
    a key and a signature, or known digests."""

    function: str
    title: str
    inputs: list

    @property
    def name(self):
        """The function without the form, known digests, an H-CRTM and an older kernel."""
        return re.sub(":(json|known|hcrtm|old_kernel)", "", self.function)

    def is_json(self):
        """Whether the answer has this form, of which alone events are."""
        return ":json" in self.function or self.is_of("events")

    def is_of(self, *functions):
        """Whether this is one of these functions, whatever it is given."""
        return self.name.partition(":")[0] in functions

    def is_more(self):
        """Whether the function gives a checkpoint too."""
        return self.is_of("more", "attest_more")

    def is_by_quote(self):
        return self.name.startswith("attest") or ":quote" in self.name

    def words(self, save):
        """What asks the program for the same, and to save a checkpoint, if there is one, in that file."""
        inputs, known = (self.inputs[:-1], [f"--known={self.inputs[-1]}"]) if ":known" in self.function else (self.inputs, [])
        json = [*(["--json"] if self.is_json() else []), *known, *(["--hcrtm"] if ":hcrtm" in self.function else [])]
        json += ["--old-kernel"] if ":old_kernel" in self.function else []
        flags = ["--prefix"] if ":prefix" in self.function else []
        flags += [f"--save={save}"] if self.is_more() else []
        if self.is_of("boot", "events"):
            return [self.name.partition(":")[0], *json, *self.confirming()]
        if self.is_by_quote():
            if ":by_key" in self.function:
                *inputs, key, signature = inputs
                flags += [f"--key={key}", f"--signature={signature}"]
            log, *state, listed, message, nonce, require = inputs
            flags += ["--signature-checked"] if ":signed" in self.function else []
            flags += [f"--resume={it}" for it in state if it.read_bytes()]
            nonce = f"--nonce={nonce.read_bytes().hex()}"
            return ["attest", *json, *flags, nonce, *option_of("--require", require), log, listed, message]
        if self.is_more():
            log, state, listed, expected, require = inputs
            flags += [f"--resume={state}"] if state.read_bytes() else []
            return ["verify", *json, *flags, *option_of("--require", require), log, listed, expected]
        command = [*COMMANDS.get(self.name, self.name).split(), *json]
        if self.name not in OPTIONS:
            return [*command, *inputs]
        *files, value = inputs
        return [*command, *option_of(OPTIONS[self.name], value), *files]

    def confirming(self):
        """The log, and the program's options for what confirms it, and for an earlier log."""
        log, *others = self.inputs
        options = [f"--before={others.pop(0)}"] if ":before" in self.name else []
        if ":expected" in self.name:
            options.append(f"--expected={others.pop(0)}")
        if ":quote" in self.name:
            listed, message, nonce, require = others
            options += [f"--list={listed}", f"--quote={message}", f"--nonce={nonce.read_bytes().hex()}", *option_of("--require", require)]
            options += ["--signature-checked"] if ":signed" in self.name else []
        return [*options, log]

    def rooms(self, text):
        """Sizes of the buffer for a text: too little, just enough and more, and so for the line that says that memory ran out. Pieces of one
        line are asked for where there are few, since each turn has as many calls as lines, and each call its turns."""
        memory, size = len(JSON_MEMORY if self.is_json() else MEMORY), len(text)
        rooms = {size + 64, size, max(size - 1, 0)}
        if self.is_of("entries", "events") and text.count(b"\n") > FEW_LINES:
            return sorted({*rooms, size // 2, size // 4}, reverse=True)
        return sorted({*rooms, memory, memory - 1, 0}, reverse=True)


def option_of(name, value):
    """The option of the program, if it has one: all registers are the selection without bytes."""
    text = value.read_bytes()
    return [] if text == NONE_REQUIRED or not text and name == "--registers" else [f"{name}={text.decode()}"]


@dataclass
class Run:
    """A case, the sizes of the buffers, and the answer with ample memory: the result, the file of its text and that of the checkpoint."""

    case: Case
    room: int
    result: int
    text: Path
    next: Path
    next_room: int

    def title(self):
        room = f"{self.room} bytes of room for {self.text.stat().st_size}"
        if self.case.is_more():
            room += f", {self.next_room} for {self.next.stat().st_size}"
        return f"ima_verify_{self.case.function} of {self.case.title}, {room}"


def hcrtm_event():
    """An event of an H-CRTM (EV_EFI_HCRTM_EVENT) in PCR 0, with a digest of SHA-256."""
    return b"".join(value.to_bytes(size, "little") for value, size in ((0, 4), (0x80000010, 4), (1, 4), (11, 2), (7, 32), (0, 4)))


def older_list(log):
    """The list of a kernel before 5.8, whose boot aggregate is over PCRs 0 to 7 alone."""
    return list_spelling([entry_of(IMA_NG, SHA256, read_log(log).registers().old_boot_aggregate(SHA256), BOOT_AGGREGATE)])


def made_files(folder, program):
    """The sample's files, and files made of them, by name. The program makes the checkpoint."""
    boot = ROOT / "samples/real-boot"
    log, listed, expected = ((boot / name).read_bytes() for name in ("firmware.log", "ima.list", "expected.txt"))
    message, nonce = ((ROOT / "samples/quoted" / name).read_bytes() for name in ("quote.msg", "nonce"))
    area, curve, endorsement = ((ROOT / "samples/keys" / name).read_bytes() for name in ("ak-rsassa.pub", "ak-p521.pub", "ek-rsa.pub"))
    nonce, known = bytes.fromhex(nonce.decode()), (ROOT / "samples/known/SHA256SUMS").read_bytes()
    signed = {name: (ROOT / "samples/signed" / name).read_bytes() for name in SIGNED}
    made = {
        "log": log,
        "one event": bytes.fromhex((ROOT / "samples/one-event.hex").read_text()),
        "cut log": log[:-1],
        "list": listed,
        "longer list": listed + listed[-95:],
        "changed list": listed.replace(b"/bin/helper", b"/bin/helpex"),
        "cut list": listed[:-1],
        "early log": log[:300],
        "padded log": log + bytes(9),
        "H-CRTM's log": log + hcrtm_event(),
        "older list": older_list(log),
        "text list": (boot / "ima.ascii").read_bytes(),
        "cut text list": (boot / "ima.ascii").read_bytes()[:-1],
        "first entries": listed[:THREE_ENTRIES_BYTES],
        "early list": listed[: THREE_ENTRIES_BYTES - 1],
        "prefix": listed[:PREFIX_BYTES],
        "rest": listed[PREFIX_BYTES:],
        "rest and more": listed[PREFIX_BYTES:] + listed[-95:],
        "cut rest": listed[PREFIX_BYTES:-1],
        "last entry": listed[-95:],
        "expected": expected,
        "firmware's": b"".join(expected.splitlines(True)[:10]),
        "tenth": expected.splitlines(True)[10],
        "other bank": b"sha1 10 " + 40 * b"0",
        "wrong line": expected + b"sha256 24 00\n",
        "printed": (boot / "tpm2_pcrread.txt").read_bytes(),
        "message": message,
        "cut message": message[:-1],
        "nonce": nonce,
        "another nonce": nonce[::-1],
        "short nonce": nonce[:15],
        "area": area,
        "area of a curve": curve,
        "cut area": area[:-1],
        "longer area": area + b"\0",
        "endorsement": endorsement,
        "known": known,
        "known without line end": known[:-1],
        "few known": b"".join(known.splitlines(True)[:3]),
        "weak": known + b"0" * 40 + b"  a\n",
        "low": b"sha256:0-10",
        "all": b"sha256:0-23",
        "ten": b"sha256:10",
        "more": b"sha1:10+sha256:0-7,8,9-10+sha512:0",
        "range": b"0-10",
        "selection": b"10,sha256:all+sha1:0",
        "part that is none": b"sha256:0-10,24",
        "no registers": b"nothing",
        "none": NONE_REQUIRED,
        "empty": b"",
        **signed,
        "changed rsassa.sig": signed["rsassa.sig"][:-1] + bytes([signed["rsassa.sig"][-1] ^ 1]),
        "cut rsassa.tpmt": signed["rsassa.tpmt"][:-1],
        "cut rsassa.pub": signed["rsassa.pub"][:-1],
        "cut rsassa.pem": signed["rsassa.pem"][:-1],
    }
    files = {}
    for number, (name, content) in enumerate(made.items()):
        files[name] = folder / f"input-{number}"
        files[name].write_bytes(content)
    files["checkpoint"] = folder / "checkpoint"
    words = [program, "verify", f"--save={files['checkpoint']}", files["log"], files["prefix"], files["firmware's"]]
    subprocess.run(words, stdout=subprocess.DEVNULL, timeout=SECONDS, check=True)
    files["damaged"], files["other version"] = folder / "damaged", folder / "other-version"
    text = files["checkpoint"].read_bytes()
    files["damaged"].write_bytes(text[:-2])
    files["quoted"] = folder / "quoted"
    files["quoted"].write_bytes(attest_report(log, listed, message, nonce, "sha256:0-10").next)
    files["quoted by rsassa"] = folder / "quoted-by-rsassa"
    files["quoted by rsassa"].write_bytes(attest_report(log, listed, signed["rsassa.msg"], nonce, "sha256:0-10").next)
    quoted = read_checkpoint(files["quoted"].read_bytes())
    files["other counts"] = folder / "other-counts"
    files["other counts"].write_bytes(quoted._replace(boot=(quoted.boot[0], quoted.boot[1] + 1)).text())
    files["other version"].write_bytes(text.replace(b"checkpoint 3", b"checkpoint 2"))
    return files


# Of the quotes by keys of each kind what is given: messages, keys as area and PEM, and signatures in both forms.
SIGNED = ("rsassa.msg", "rsassa.pub", "rsassa.pem", "rsassa.sig", "rsassa.tpmt", "rsapss.msg", "rsapss.pem", "rsapss.tpmt",
          "p256.msg", "p256.pub", "p256.pem", "p256.sig", "p521.pub")

# What each function takes, by names of files, and in which forms.
BOTH = ("", ":json")
CASES = (
    (("verdict", "locate"), BOTH, (
        ("the real boot", "log", "list", "expected", "all"),
        ("the real boot, and nothing required", "log", "list", "expected", "none"),
        ("a longer list", "log", "longer list", "expected", "all"),
        ("a changed list", "log", "changed list", "expected", "none"),
        ("a bank that the log lacks", "log", "list", "other bank", "none"),
        ("an empty list", "log", "empty", "expected", "none"),
        ("no expected registers", "log", "list", "empty", "none"),
        ("no expected registers, but required ones", "log", "list", "empty", "all"),
        ("registers that are missing", "log", "list", "expected", "more"),
        ("an empty log", "empty", "list", "expected", "none"),
        ("a log that is cut short", "cut log", "list", "expected", "none"),
        ("a list that is cut short", "log", "cut list", "expected", "more"),
        ("expected registers of which one is wrong", "log", "list", "wrong line", "none"),
        ("an empty requirement", "log", "list", "expected", "empty"),
        ("a requirement that names none", "log", "list", "expected", "no registers"),
        ("a requirement of every bank", "log", "list", "expected", "range"),
        ("a requirement with a part that is none", "log", "list", "expected", "part that is none"),
    )),
    (("more", "more:prefix"), BOTH, (
        ("the real boot", "log", "empty", "list", "expected", "none"),
        ("a longer list", "log", "empty", "longer list", "expected", "all"),
        ("what follows a checkpoint", "log", "checkpoint", "rest", "expected", "all"),
        ("more than that", "log", "checkpoint", "rest and more", "expected", "none"),
        ("a changed list", "log", "empty", "changed list", "tenth", "ten"),
        ("what follows and is cut short", "log", "checkpoint", "cut rest", "expected", "none"),
        ("registers that are missing", "log", "checkpoint", "rest", "expected", "more"),
        ("a damaged checkpoint", "log", "damaged", "rest", "expected", "none"),
        ("a checkpoint of another version", "log", "other version", "rest", "expected", "none"),
        ("a checkpoint of another boot", "one event", "checkpoint", "rest", "expected", "none"),
        ("no expected registers", "log", "checkpoint", "rest", "empty", "none"),
        ("an empty requirement", "log", "damaged", "cut rest", "wrong line", "empty"),
        ("a requirement that names none", "log", "checkpoint", "rest", "expected", "no registers"),
    )),
    (("attest:signed",), BOTH, (
        ("the real boot", "log", "list", "message", "nonce", "low"),
        ("a longer list", "log", "longer list", "message", "nonce", "low"),
        ("a changed list", "log", "changed list", "message", "nonce", "low"),
        ("an empty list", "log", "empty", "message", "nonce", "low"),
        ("one event", "one event", "list", "message", "nonce", "low"),
        ("a log that is cut short", "cut log", "list", "message", "nonce", "low"),
        ("a list that is cut short", "log", "cut list", "message", "nonce", "low"),
        ("a message that is cut short", "log", "list", "cut message", "nonce", "low"),
        ("another nonce", "log", "list", "message", "another nonce", "low"),
        ("a nonce that is too short", "log", "list", "message", "short nonce", "low"),
        ("registers that are not quoted", "log", "list", "message", "nonce", "all"),
        ("a requirement that names none", "log", "list", "message", "nonce", "no registers"),
    )),
    (("attest",), BOTH, (
        ("the real boot", "log", "list", "message", "nonce", "low"),
        ("a longer list", "log", "longer list", "message", "nonce", "low"),
    )),
    (("attest_more:signed", "attest_more:signed:prefix"), BOTH, (
        ("the real boot", "log", "empty", "list", "message", "nonce", "low"),
        ("a longer list", "log", "empty", "longer list", "message", "nonce", "low"),
        ("nothing after a checkpoint", "log", "quoted", "empty", "message", "nonce", "low"),
        ("an entry after it", "log", "quoted", "last entry", "message", "nonce", "low"),
        ("a checkpoint that no quote confirmed", "log", "checkpoint", "rest", "message", "nonce", "low"),
        ("a checkpoint of another boot by its counts", "log", "other counts", "empty", "message", "nonce", "low"),
        ("a checkpoint of another boot by its log", "one event", "quoted", "empty", "message", "nonce", "low"),
        ("a damaged checkpoint", "log", "damaged", "rest", "message", "nonce", "low"),
        ("a checkpoint of another version", "log", "other version", "rest", "message", "nonce", "low"),
        ("another nonce", "log", "damaged", "rest", "message", "another nonce", "low"),
    )),
    (("attest_more",), BOTH, (
        ("the real boot", "log", "empty", "list", "message", "nonce", "low"),
    )),
    (("attest:by_key",), BOTH, (
        ("the real boot", "log", "list", "rsassa.msg", "nonce", "low", "rsassa.pub", "rsassa.sig"),
        ("a key as PEM", "log", "list", "rsassa.msg", "nonce", "low", "rsassa.pem", "rsassa.tpmt"),
        ("a changed list", "log", "changed list", "rsapss.msg", "nonce", "low", "rsapss.pem", "rsapss.tpmt"),
        ("a list that is cut short", "log", "cut list", "rsassa.msg", "nonce", "low", "rsassa.pub", "rsassa.tpmt"),
        ("a signature that is cut short", "log", "list", "rsassa.msg", "nonce", "low", "rsassa.pem", "cut rsassa.tpmt"),
        ("a changed signature", "log", "list", "rsassa.msg", "nonce", "low", "rsassa.pem", "changed rsassa.sig"),
        ("a signature of another message", "cut log", "list", "message", "nonce", "low", "rsassa.pub", "rsassa.sig"),
        ("another key", "log", "cut list", "rsassa.msg", "nonce", "low", "p256.pub", "rsassa.tpmt"),
        ("a key by which no signature is verified", "log", "list", "rsassa.msg", "nonce", "low", "p521.pub", "rsassa.sig"),
        ("a key as PEM that is cut short", "log", "list", "rsassa.msg", "nonce", "low", "cut rsassa.pem", "rsassa.sig"),
        ("a key's area that is cut short", "log", "list", "rsassa.msg", "nonce", "low", "cut rsassa.pub", "rsassa.sig"),
        ("a key for endorsement", "log", "list", "rsassa.msg", "nonce", "low", "endorsement", "rsassa.sig"),
        ("another nonce", "log", "list", "rsassa.msg", "another nonce", "low", "rsassa.pub", "rsassa.sig"),
        ("a nonce that is too short", "log", "list", "rsassa.msg", "short nonce", "low", "cut rsassa.pub", "rsassa.sig"),
    )),
    (("attest:by_key",), ("",), (
        # (each of its calls takes a tenth of a second, so there are few: the quote is refused after its signature)
        ("a key on a curve as PEM, and another nonce", "log", "list", "p256.msg", "another nonce", "low", "p256.pem", "p256.sig"),
    )),
    (("attest_more:by_key", "attest_more:by_key:prefix"), BOTH, (
        ("a longer list", "log", "empty", "longer list", "rsassa.msg", "nonce", "low", "rsassa.pem", "rsassa.sig"),
        ("nothing after a checkpoint", "log", "quoted by rsassa", "empty", "rsassa.msg", "nonce", "low", "rsassa.pub", "rsassa.tpmt"),
        ("a damaged checkpoint", "log", "damaged", "rest", "rsassa.msg", "nonce", "low", "rsassa.pub", "rsassa.tpmt"),
        ("a changed signature", "log", "damaged", "rest", "rsassa.msg", "nonce", "low", "rsassa.pub", "changed rsassa.sig"),
    )),
    (("replay",), BOTH, (
        ("the real boot", "list", "tenth", "ten"),
        ("the real boot, and nothing required", "list", "tenth", "none"),
        ("a longer list", "longer list", "tenth", "ten"),
        ("a changed list", "changed list", "tenth", "ten"),
        ("registers that are missing", "list", "tenth", "more"),
        ("an empty list", "empty", "tenth", "ten"),
        ("no expected registers", "list", "empty", "ten"),
        ("expected registers of which one is wrong", "list", "wrong line", "ten"),
        ("an empty requirement", "list", "tenth", "empty"),
        ("a requirement that names none", "list", "tenth", "no registers"),
        ("a list that is cut short", "cut list", "tenth", "ten"),
    )),
    (("verdict:known",), BOTH, (
        ("the real boot", "log", "list", "expected", "all", "known"),
        ("the real boot, and few known files", "log", "list", "expected", "ten", "few known"),
        ("the real boot, and no known file", "log", "list", "expected", "ten", "empty"),
        ("a digest by SHA-1", "cut log", "list", "expected", "ten", "weak"),
        ("known files that are none", "log", "cut list", "expected", "ten", "expected"),
    )),
    (("verdict:known",), ("",), (
        ("known files without registers that are required", "log", "list", "expected", "none", "known"),
    )),
    (("replay:known",), BOTH, (
        ("the real boot", "list", "tenth", "ten", "known without line end"),
        ("the real boot, and no known file", "list", "tenth", "ten", "empty"),
        ("known files that are none", "cut list", "tenth", "ten", "list"),
    )),
    (("more:known", "more:known:prefix"), BOTH, (
        ("the real boot", "log", "empty", "list", "expected", "ten", "known"),
        ("what follows a checkpoint", "log", "checkpoint", "rest", "expected", "all", "known"),
        ("more than that, and no known file", "log", "checkpoint", "rest and more", "expected", "ten", "empty"),
        ("a digest by SHA-1", "one event", "checkpoint", "rest", "expected", "ten", "weak"),
        ("a damaged checkpoint, and a digest by SHA-1", "log", "damaged", "rest", "expected", "ten", "weak"),
    )),
    (("attest:signed:known",), BOTH, (
        ("the real boot", "log", "list", "message", "nonce", "low", "known"),
        ("the real boot, and no known file", "log", "list", "message", "nonce", "low", "empty"),
        ("known files that are none", "log", "list", "message", "nonce", "low", "message"),
    )),
    (("attest_more:signed:known", "attest_more:signed:known:prefix"), BOTH, (
        ("a longer list", "log", "empty", "longer list", "message", "nonce", "low", "known"),
        ("nothing after a checkpoint", "log", "quoted", "empty", "message", "nonce", "low", "few known"),
        ("a digest by SHA-1", "one event", "quoted", "empty", "message", "nonce", "low", "weak"),
    )),
    (("attest_more:by_key:known",), BOTH, (
        ("the real boot", "log", "empty", "list", "rsassa.msg", "nonce", "low", "rsassa.pub", "rsassa.sig", "known"),
        ("known files that are none", "log", "empty", "list", "rsassa.msg", "nonce", "low", "rsassa.pem", "rsassa.sig", "message"),
    )),
    (("expected",), BOTH, (
        ("what was printed", "printed", "empty"),
        ("a range of it", "printed", "range"),
        ("a selection of it", "printed", "selection"),
        ("a selection with a part that is none", "printed", "part that is none"),
        ("a range that is none", "printed", "no registers"),
        ("another text", "expected", "range"),
    )),
    (("registers",), BOTH, (
        ("the real boot", "log"), ("one event", "one event"), ("a log that is cut short", "cut log"), ("an empty log", "empty"),
    )),
    (("verdict:hcrtm", "locate:hcrtm"), BOTH, (
        ("an H-CRTM's log", "H-CRTM's log", "list", "expected", "all"), ("a log that is cut short", "cut log", "list", "expected", "none"),
    )),
    (("more:hcrtm",), ("",), (
        ("an H-CRTM's log", "H-CRTM's log", "empty", "list", "expected", "none"),
    )),
    (("attest:signed:hcrtm",), ("",), (
        ("an H-CRTM's log", "H-CRTM's log", "list", "message", "nonce", "low"),
    )),
    (("verdict:old_kernel",), BOTH, (
        ("an older kernel's list", "log", "older list", "expected", "all"), ("a log that is cut short", "cut log", "older list", "expected", "all"),
    )),
    (("more:old_kernel",), ("",), (
        ("an older kernel's list", "log", "empty", "older list", "expected", "all"),
    )),
    (("attest:signed:old_kernel",), ("",), (
        ("an older kernel's list", "log", "older list", "message", "nonce", "low"),
    )),
    (("boot:quote:signed:old_kernel",), BOTH, (
        ("an older kernel's list", "log", "older list", "message", "nonce", "low"),
    )),
    (("registers:hcrtm",), BOTH, (
        ("an H-CRTM's log", "H-CRTM's log"), ("the real boot", "log"), ("an empty log", "empty"),
    )),
    (("boot:expected:hcrtm",), BOTH, (
        ("an H-CRTM's log", "H-CRTM's log", "expected"),
    )),
    (("convert:list",), ("",), (
        ("the real boot", "text list"), ("a last line that is cut short", "cut text list"), ("a binary list", "list"),
    )),
    (("convert:log",), ("",), (
        ("the real boot", "log"), ("a log with padding", "padded log"), ("a log that is cut short", "cut log"), ("no log", "list"),
        ("an empty log", "empty"),
    )),
    (("key", "key:endorsement"), BOTH, (
        ("an attestation key", "area"), ("a key of a curve", "area of a curve"), ("an endorsement key", "endorsement"),
        ("an area that is cut short", "cut area"), ("an area with more after it", "longer area"), ("an empty area", "empty"),
    )),
    (("events",), ("",), (
        ("the real boot", "log"), ("one event", "one event"), ("a log that is cut short", "cut log"),
        ("a log that is cut early", "early log"), ("an empty log", "empty"),
    )),
    (("boot:expected",), BOTH, (
        ("the real boot", "log", "expected"), ("one event", "one event", "expected"), ("a log that is cut short", "cut log", "expected"),
        ("expected registers of which one is wrong", "log", "wrong line"),
    )),
    (("boot",), BOTH, (
        ("the real boot", "log"), ("an empty log", "empty"),
    )),
    (("boot:before",), BOTH, (
        ("another boot", "log", "one event"), ("an earlier log that is cut short", "log", "cut log"),
    )),
    (("boot:before:expected",), BOTH, (
        ("the same boot", "log", "log", "expected"),
    )),
    (("boot:quote:signed",), BOTH, (
        ("the real boot", "log", "list", "message", "nonce", "low"),
        ("a changed list", "log", "changed list", "message", "nonce", "low"),
        ("another nonce", "log", "list", "message", "another nonce", "low"),
    )),
    (("events:expected",), ("",), (
        ("the real boot", "log", "expected"), ("a log that is cut short", "cut log", "expected"),
        ("expected registers of which one is wrong", "log", "wrong line"),
    )),
    (("events:quote:signed", "events:quote"), ("",), (
        ("the real boot", "log", "list", "message", "nonce", "low"),
        ("a changed list", "log", "changed list", "message", "nonce", "low"),
    )),
    (("registers:list", "entries"), BOTH, (
        ("the real boot", "list"), ("a changed list", "changed list"), ("a list that is cut short", "cut list"),
        ("three entries", "first entries"), ("a list that is cut early", "early list"),
    )),
)  # fmt: skip


def cases(files):
    """Every function, with inputs that it takes and inputs that it refuses."""
    for functions, forms, rows in CASES:
        for function, form, (title, *names) in product(functions, forms, rows):
            yield Case(function + form, title, [files[name] for name in names])


def answer_to(case, program, following, files):
    """The program's answer. It prints no entries of a damaged list without --json: those before the fault are the sample's. Where it has the
    status of what is not attested, the library refuses the quote, or says that the verdict is not `match`; and so it says where nothing is
    compared."""
    answer = subprocess.run([program, *case.words(following)], capture_output=True, timeout=SECONDS)
    if case.is_by_quote() and answer.returncode == NOT_ATTESTED:
        return REFUSED if QUOTE_REFUSED.search(answer.stdout) else DIFFERS, answer.stdout
    if case.is_of("verdict") and answer.returncode == 0 and not case.inputs[2].read_bytes():
        return DIFFERS, b"differ".join(answer.stdout.rsplit(b"match", 1))
    if answer.returncode not in (0, 1, 2):
        raise RuntimeError(f"{program} {case.function} of {case.title}: status {answer.returncode}, {answer.stderr[-500:]!r}")
    if case.function == "entries" and answer.returncode == 2:
        whole = subprocess.run([program, "show", files["list"]], capture_output=True, timeout=SECONDS, check=True)
        before = re.split(rb"^(?=10 )", whole.stdout, flags=re.MULTILINE)[1 : 1 + int(answer.stdout.split()[-1])]  # (a path has a line feed)
        return answer.returncode, b"".join(before) + answer.stdout
    return answer.returncode, answer.stdout


def runs_of(case, program, file, files):
    """The runs of a case, one for each size of the buffers. The answer is the program's; its text goes to a file, and the checkpoint to one
    beside it, which is empty if there is none."""
    following = file.with_suffix(".next")
    result, text = answer_to(case, program, following, files)
    file.write_bytes(text)
    size = len(text)
    following.touch()
    next_size = following.stat().st_size
    for room in case.rooms(text):
        yield Run(case, room, result, file, following, next_size + (64 if room > size else 0))
    if next_size:
        for next_room in (next_size - 1, 0):
            yield Run(case, size, result, file, following, next_room)


def swept(run, caller):
    """How many allocations were refused, and what was wrong, or None."""
    words = [caller, run.case.function, str(run.result), run.text, str(run.room), run.next, str(run.next_room), *run.case.inputs]
    try:
        ended = subprocess.run(words, capture_output=True, timeout=SECONDS)
    except subprocess.TimeoutExpired:
        return 0, f"more than {SECONDS} seconds"
    said = (ended.stdout + ended.stderr).decode(errors="replace").strip()
    if ended.returncode != 0:
        return 0, f"status {ended.returncode}, {said[-500:]!r}"
    return int(said), None if int(said) > 0 else "no allocation was refused"


def built_files(folder):
    """The program and the static library of this tree, after `dist/library` has built what is not up to date."""
    subprocess.run([ROOT / "dist/library", folder / "made"], check=True)
    return [PROGRAM, ROOT / "crates/ima_verify_c/out/libima_verify_c.a"]


def caller_of(archive, folder):
    """The program of tests/faults/library.c, linked with the library and with no other source of memory."""
    caller = folder / "library"
    source = Path(__file__).with_suffix(".c")
    flags = ["-std=c11", "-O2", "-Wall", "-Wextra", "-Wpedantic", "-Werror", f"-I{ROOT / 'bindings/c'}"]
    subprocess.run(["cc", *flags, "-o", caller, source, archive], check=True)
    return caller


def memory_fault(archive):
    """What is wrong with where the library takes its memory, or None: all is to come from the functions that are replaced."""
    listing = subprocess.run(["nm", "-u", archive], capture_output=True, text=True, check=True)
    names = {line.split()[-1] for line in listing.stdout.splitlines() if line.startswith(" ")}
    if names & ELSEWHERE:
        return f"it calls {', '.join(sorted(names & ELSEWHERE))}"
    return None if REPLACED <= names else f"it does not call {', '.join(sorted(REPLACED - names))}"


class Library(harness.TestCase):
    def test_allocations(self):
        folder = self.folder()
        program, archive = (Path(name).resolve() for name in sys.argv[1:] or built_files(folder))
        caller, runs = caller_of(archive, folder), []
        self.check("where the library takes its memory", memory_fault(archive), None)
        files = made_files(folder, program)
        for number, case in enumerate(cases(files)):
            runs += runs_of(case, program, folder / f"answer-{number}", files)
        called = {f"ima_verify_{run.case.name.partition(':')[0]}" for run in runs}
        self.check("each function of the header is called", called, set(functions_of(ROOT)) - {VERSION, ERROR_TEXT})
        check_runs(self, runs, lambda run: swept(run, caller), "allocations refused")


if __name__ == "__main__":
    if len(sys.argv) not in (1, 3):
        sys.exit("usage: tests/faults/library.py [PROGRAM ARCHIVE]")
    sys.exit(harness.main())
