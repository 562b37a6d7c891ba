"""What the tests of attest/ share: the arguments of a call and its end, stand-ins for tools, and made logs and lists."""

import os
import re
import shutil
import subprocess
import sys
import tempfile
from contextlib import contextmanager, suppress
from dataclasses import dataclass, replace
from pathlib import Path

sys.path.append(str(Path(__file__).resolve().parents[1] / "cases"))
import form
import harness
from emulated import BOOT, ROOT, TOOLS
from reference.log import Event, read_log
from reference.measurement_list import IMA_NG, entry_of, list_spelling, read_list, replay
from reference.registers import SHA256

QUOTED = ROOT / "samples/quoted"
NEEDED = ("swtpm", "openssl", "tpm2_flushcontext", "tpm2_pcrread", "tpm2_pcrextend", "tpm2_pcrreset", "tpm2_readpublic", "tpm2_makecredential",
          "tpm2_activatecredential", "tpm2_nvdefine", "tpm2_nvread", "tpm2_getcap", "flock", *TOOLS)
SCRIPTS = {"verify": "ima-attest", "enroll": "ima-enroll", "collect": "ima-collect"}
NONCE = (QUOTED / "nonce").read_text().strip()
OF_QUOTE = "quote match"
LOW = f"quoted sha256 {' '.join(map(str, range(11)))}"
LAST_ENTRY = 95  # bytes
VALID = "signature valid"
EV_EVENT_TAG = 6
LOG = read_log((BOOT / "firmware.log").read_bytes())
ENTRIES = read_list((BOOT / "ima.list").read_bytes())
SECONDS = 240  # after which a call hangs, however busy the machine is
# How a line begins that the script or bash says, and not the program.
FOREIGN = re.compile(r"(?:\S*/)?(?:ima-attest|bash): ")
# All that `ima-attest` needs beside ima-agent.
TOOL = "readlink"
# A dd to which each read gives 16 bytes, as a file system may, unless it asks for full blocks.
SHORT_READS = """
    for word; do
        case $word in if=* | of=*) names+=("$word") ;; bs=*) [[ $word == bs=64K ]] || exit 9 ;; count=*) most=${word#count=} ;; esac
    done
    [[ $* == *fullblock* ]] || set -- "${names[@]}" bs=16 count=$(((most + 65535) / 65536)) status=none
    exec "$real" "$@"
"""


@dataclass
class Evidence:
    """The arguments of a call, by name."""

    key: Path = QUOTED / "AK.pem"
    nonce: str = NONCE
    quote: Path = QUOTED / "quote.msg"
    signature: Path = QUOTED / "quote.sig"
    require: str = "sha256:0-10"
    log: Path = BOOT / "firmware.log"
    list: Path = BOOT / "ima.list"
    expected: Path = None
    save: Path = None
    resume: Path = None
    known: tuple = ()
    prefix: bool = False
    sha1: bool = False
    hcrtm: bool = False
    old_kernel: bool = False
    json: bool = False

    def options(self):
        """The options, each with its value."""
        names = ("key", "nonce", "quote", "signature", "require", "save", "resume")
        return [[f"--{name}", str(getattr(self, name))] for name in names if getattr(self, name) is not None] + [
            ["--known", str(name)] for name in self.known]

    def words(self):
        flags = [f"--{name.replace('_', '-')}" for name in ("prefix", "sha1", "hcrtm", "old_kernel", "json") if getattr(self, name)]
        return ["ima-attest", *sum(self.options(), []), *flags, "--", *map(str, filter(None, (self.log, self.list, self.expected)))]


GOOD = Evidence()  # samples/quoted
# Why a message is not taken as signed (docs/errors.txt).
NO_SIGNATURE, SIGNATURE_TRAILING = (1, 2, 3, 4), 4
OTHER_SCHEME, OTHER_HASH, NOT_SIGNED, OTHER_KEY, OTHER_PEM = 5, 6, 7, 8, 9
EXPECTED = BOOT / "expected.txt"  # the values of all registers of its bank


@dataclass
class Ended:
    """A call's status, its output, and what it said on standard error."""

    status: int
    output: str
    errors: str

    @property
    def last(self):
        return self.output.rstrip("\n").rsplit("\n", 1)[-1]


class AttestTests(harness.TestCase):
    """Tests of what is installed in a folder of the class: the scripts, beside `ima-agent`, which is the program."""

    program, needed = harness.PROGRAM, ()

    @classmethod
    def setUpClass(cls):
        cls.needs(*cls.needed)
        cls.folder = Path(cls.enter(tempfile.TemporaryDirectory())).resolve()
        cls.bin, cls.scratch = cls.folder / "bin", cls.folder / "scratch"
        for made in (cls.bin, cls.scratch):
            made.mkdir()
        for script, installed in SCRIPTS.items():
            shutil.copy(ROOT / "attest" / script, cls.bin / installed)
        cls.agent = cls.bin / "ima-agent"
        cls.agent.symlink_to(cls.program)
        cls.tool = cls.folder / "tool"
        cls.tool.mkdir()
        cls.tool.joinpath(TOOL).symlink_to(shutil.which(TOOL))
        cls.verifier_path = f"{cls.bin}:{cls.tool}"
        cls.use(os.environ)

    @classmethod
    def use(cls, environment):
        """The tools of this environment come after what is installed."""
        cls.environment = {**environment, "TMPDIR": str(cls.scratch), "PATH": f"{cls.bin}:{environment['PATH']}"}

    def call(self, words, folder=None, standard_input=b"", **settings):
        """A call, after which no temporary file is left."""
        ended = subprocess.run(words, cwd=folder or self.folder, env={**self.environment, **settings}, input=standard_input,
                               capture_output=True, timeout=SECONDS)
        if left := list(self.scratch.iterdir()):
            self.check(f"no temporary file is left by {words}", left, [])
        return Ended(ended.returncode, ended.stdout.decode(), ended.stderr.decode())

    def signed(self, evidence, folder=None):
        """The evidence, with the signature of its quote: its own."""
        return evidence

    def attest(self, evidence=GOOD, settings=None, folder=None, **changes):
        """A call with this evidence, but for these changes, on a computer that has no openssl: nothing but `readlink`."""
        words = self.signed(replace(evidence, **changes), folder).words()
        return self.call(words, folder, **{"PATH": self.verifier_path, **(settings or {})})

    def attest_from(self, path, evidence):
        """A call whose standard input is a file."""
        return self.call(["bash", "-c", 'exec "${@:2}" <"$1"', "bash", str(path), *self.signed(evidence).words()])

    def said_on_terminal(self, evidence, words=None):
        """The status of a call with this evidence, or of these words, and what it says on standard error where that is a terminal."""
        primary, terminal = os.openpty()
        with os.fdopen(primary, "rb", buffering=0) as shown:
            ended = subprocess.run(words or self.signed(evidence).words(), env=self.environment, stdin=subprocess.DEVNULL, stdout=subprocess.DEVNULL,
                                   stderr=terminal, timeout=SECONDS)
            os.close(terminal)
            said = b""
            with suppress(OSError):  # (nothing more was said)
                while part := shown.read(1000):
                    said += part
            return ended.returncode, said.decode()

    def put(self, name, data):
        """A file with these bytes."""
        path = self.folder / name
        path.write_bytes(data)
        return path

    def stand_in(self, name, body):
        """Settings with which a script stands in for a tool; what it stands in for is `$real`."""
        folder = Path(tempfile.mkdtemp(dir=self.folder))
        real = shutil.which(name, path=self.environment["PATH"]) or "false"
        folder.joinpath(name).write_text(f"#!/bin/bash\nreal={real}\n{body}\n")
        folder.joinpath(name).chmod(0o755)
        return {"PATH": f"{folder}:{self.environment['PATH']}"}

    def stand_ins(self, bodies):
        """Settings with which several scripts stand in, each for the tool that it is named by."""
        paths = [self.stand_in(name, body)["PATH"].partition(":")[0] for name, body in bodies.items()]
        return {"PATH": ":".join([*paths, self.environment["PATH"]])}

    def state(self, name, values, algorithm=SHA256):
        """A message that states these values of registers 0 to 10 of a bank."""
        message = GOOD.quote.read_bytes()
        bank = message.index(bytes.fromhex("000b03ff0700"))
        changed = message[:bank] + algorithm.identifier.to_bytes(2, "big") + message[bank + 2 : -32] + SHA256.hash(b"".join(values))
        return self.put(f"{name}.msg", changed)

    @contextmanager
    def other_agent(self, body):
        """Has a script stand in for ima-agent, which is `$real`."""
        self.agent.unlink()
        self.agent.write_text(f'#!/bin/bash\nreal={self.program}\n{body}\nexec "$real" "$@"\n')
        self.agent.chmod(0o755)
        try:
            yield
        finally:
            self.agent.unlink()
            self.agent.symlink_to(self.program)

    def check_match(self, title, ended, quoted=LOW):
        """The verdict is `match`, by a signed quote of registers 0 to 10, or of others, and nothing else is said."""
        lines = ended.output.splitlines()
        found = (ended.status, lines[:1], lines[-3:], ended.errors)
        self.check(title, found, (0, [quoted], [OF_QUOTE, VALID, "verdict match"], ""))

    def check_refused(self, title, ended, status, words):
        """There is no report, and a sentence of the script says why."""
        self.check(title, (ended.status, ended.output, words in ended.errors or ended.errors), (status, "", True))

    def check_line(self, title, ended, status, *lines):
        """There is no report, but one of these lines of the program. What it says of that on standard error is in words, said once, and by nothing
        else."""
        said = ended.errors.splitlines()
        foreign = [line for line in said if FOREIGN.match(line) or said.count(line) > 1]
        found = (ended.status, ended.output.removesuffix("\n") in lines or ended.output, foreign, is_in_words(ended) or ended.errors)
        self.check(title, found, (status, True, [], True))

    def check_fault(self, title, ended, number):
        """The program refuses the quote, whose message is signed: there is no report, but the number of its fault."""
        self.check_line(title, ended, 4, f"refused: quote fault {number}")

    def check_unsigned(self, title, ended, *numbers):
        """The program does not take the quote's message as signed: there is no report, but the number of the refusal, which is one of these."""
        self.check_line(title, ended, 4, *(f"refused: signature fault {number}" for number in numbers or (NOT_SIGNED,)))

    def check_key(self, title, ended, number):
        """The program refuses a public area: there is no report, but the number of its fault."""
        self.check_line(title, ended, 2, f"refused: key fault {number}")

    def check_unread(self, title, ended, name):
        """The program does not read the file of this name: there is no report, but the name."""
        self.check_line(title, ended, 3, f"failed: read {name}")

    def check_differ(self, title, ended, *rows):
        """The verdict is `differ`, and the report has these rows. The quote is of other values, unless a row says that it is not."""
        lines, rows = ended.output.splitlines(), [*rows, *([] if OF_QUOTE in rows else ["quote differ"]), VALID]
        lacking = [row for row in rows if row not in lines]
        self.check(title, (ended.status, ended.last, lacking, ended.errors), (1, "verdict differ", [], ""))


class OwnKeyTests(AttestTests):
    """Tests without a TPM: messages are signed by a key that openssl made, which signs anything."""

    needed = ("openssl",)

    @classmethod
    def setUpClass(cls):
        super().setUpClass()
        cls.secret, cls.own, cls.signatures = cls.folder / "own.key", cls.folder / "own.pem", {}
        for words in (["genpkey", "-algorithm", "RSA", "-pkeyopt", "rsa_keygen_bits:2048", "-out", cls.secret],
                      ["pkey", "-in", cls.secret, "-pubout", "-out", cls.own]):
            subprocess.run(["openssl", *words], check=True, capture_output=True)

    def signed(self, evidence, folder=None):
        """The evidence, with a signature by the own key, which is written anew for each call; of no message if there is no such file."""
        quote = Path(folder or self.folder, evidence.quote)
        message = quote.read_bytes() if quote.is_file() else b""
        if message not in self.signatures:
            ended = subprocess.run(["openssl", "dgst", "-sha256", "-sign", self.secret], input=message, check=True, capture_output=True)
            self.signatures[message] = ended.stdout
        return replace(evidence, key=self.own, signature=self.put("own.sig", self.signatures[message]))


def is_in_words(ended):
    """Whether standard error says in words what the line of an error is: in those of docs/errors.txt, if it has a number."""
    numbered = re.fullmatch(r"refused: (quote|signature|key) fault (\d+)\n", ended.output)
    if numbered:
        row = form.rows_of(numbered[1].capitalize())[int(numbered[2])]
        return f": {row.as_sentence().wrong}\n" in ended.errors and ended.errors.count("\n") == 2
    said = {"failed: read ": "cannot read ", "refused: command line\n": "error: "}
    return any(ended.output.startswith(line) and ended.errors.startswith(words) for line, words in said.items())


def turned(data):
    """These bytes, but for the last bit."""
    return data[:-1] + bytes([data[-1] ^ 1])


def executable(path, register=10):
    """The entry of a file whose content is its path."""
    return entry_of(IMA_NG, SHA256, SHA256.hash(path), path)._replace(register=register)


def moved(entries, count, kind=EV_EVENT_TAG, register=10, log=LOG):
    """A log and a list of which the log has the first entries, as events of a register that extend what these do."""
    events = [Event(register, kind, {it.identifier: entry.digest_of(it) for it in log.algorithms}, b"") for entry in entries[:count]]
    return log._replace(events=[*log.events, *events]).spelling(), list_spelling(entries[count:])


def values_after(entries, log=LOG, algorithm=SHA256):
    """The values of registers 0 to 10 of a bank after a log and a list."""
    registers = log.registers()
    replay(registers, entries)
    return [registers.value(algorithm, register) for register in range(11)]


SECOND_KERNEL = [ENTRIES[0], executable(b"/bin/after")]  # what a list has after kexec, when it begins anew
