"""Tests of attest/collect: its folder is whole or is not there, nothing is left in the TPM, and what is wrong is said in a sentence."""

import os
import re
import shutil
import signal
import subprocess
import time
from pathlib import Path

from calling import ENTRIES, NONCE, SECONDS, AttestTests, executable
from emulated import BOOT, ROOT
from reference.measurement_list import list_spelling
from tpm import BLOCK, EVIDENCE, QUOTED, MachineTests, at

WITH_NONCE = f"ima-collect --nonce {NONCE} made"
WITHOUT_NONCE = "ima-collect made"
HANDLE = "0x81010002"
USAGE = "\nusage: ima-collect --enroll"
# What it may call, beside tpm2-tools.
COREUTILS = ("cat", "ls", "mkdir", "mktemp", "mv", "rm", "stat")
TOOLS = ("tpm2_getcap", "tpm2_createek", "tpm2_createak", "tpm2_evictcontrol", "tpm2_nvread", "tpm2_flushcontext", "tpm2_startauthsession",
         "tpm2_policysecret", "tpm2_activatecredential", "tpm2_quote", "tpm2_pcrread")


class CollectTests(MachineTests):
    """Tests of what ima-collect makes in the machine's folder."""

    def make(self, block, **settings):
        shutil.rmtree(self.home / "made", ignore_errors=True)
        return self.on_machine(block, **settings)

    @property
    def made(self):
        folder = self.home / "made"
        return sorted(path.name for path in folder.iterdir()) if folder.is_dir() else []

    def hidden(self):
        """What a call that failed left beside its folder."""
        return [path.name for path in self.home.iterdir() if path.name.startswith(".")]

    def check_made(self, title, ended, names, said=""):
        said += "".join(f"{line}\n" for line in self.collected("made", names))
        self.check(title, (ended.status, ended.output, ended.errors, self.made, self.hidden()), (0, "", said, names, []))

    def check_failed(self, title, ended, words):
        """There is no folder, and one sentence says why."""
        found = (ended.status, ended.output, words in ended.errors or ended.errors, ended.errors.count("\n"))
        self.check(title, found, (3, "", True, 1))
        self.check(f"{title}: nothing is left", (self.home.joinpath("made").exists(), self.hidden()), (False, []))

    def persistent(self):
        return re.findall(r"0x81\w+", self.call(["tpm2_getcap", "handles-persistent"]).output.lower())


class Collected(CollectTests):
    """A machine with a key at the usual handle."""

    def test_keys(self):
        """Keys are made, each at its handle, and stay there."""
        without = ("ima-collect: the TPM has no certificate of its endorsement key: the verifier can enroll it only with --in-hand, "
                   "on which ima-enroll(1) has more\n")
        self.must("a certificate of a key on a curve", "tpm2_nvdefine", "0x1c0000a", "-C", "p", "-s", "4", "-a", "ownerread|ppwrite|platformcreate")
        self.check_made("a TPM without a certificate", self.make("ima-collect --enroll --handle 0x81010007 made"), ["AK.pub", "EK.pub"], without)
        self.give_certificate()
        self.check_made("a key is made", self.make("ima-collect --enroll made"), ["AK.pub", "EK.der", "EK.pub"])
        self.check("both stay", self.persistent(), [HANDLE, "0x81010007"])
        for name, words in (("AK.pub", ("tpm2_readpublic", "-c", HANDLE, "-f", "tss", "-o", "told")),
                            ("EK.pub", ("tpm2_createek", "-c", "ek.ctx", "-G", "rsa", "-u", "told"))):
            self.must(f"{name} as the TPM tells it", *words)
            self.check(f"{name} is that", self.home.joinpath("made", name).read_bytes() == self.home.joinpath("told").read_bytes())
        certificates = [self.home.joinpath(name).read_bytes() for name in ("made/EK.der", "certificate")]
        self.check("EK.der is the certificate", certificates[0] == certificates[1])
        self.check_failed("a handle that is taken", self.make("ima-collect --enroll made"), f"the handle {HANDLE} is taken: give another one")
        ended = self.make(WITH_NONCE.replace("--nonce", "--handle=0x8101000A --nonce"))
        self.check_failed("no key at the handle", ended, "no key is at the handle 0x8101000a")
        unseen = self.stand_in("tpm2_getcap", '[[ $1 == handles-persistent ]] || exec "$real" "$@"')
        self.check_failed("a handle that was taken meanwhile", self.make("ima-collect --enroll made", **unseen), f"the handle {HANDLE} is taken")
        unread = self.stand_in("tpm2_getcap", '[[ $1 != handles-nv-index ]] || exit 1; exec "$real" "$@"')
        ended = self.make("ima-collect --enroll --handle 0x81010008 made", **unread)
        self.check_failed("a TPM that does not tell of its certificate", ended, "no TPM 2.0 answers")
        self.check("both stay still", self.persistent(), [HANDLE, "0x81010007"])
        for tool in ("tpm2_createek", "tpm2_createak", "tpm2_nvread", "tpm2_evictcontrol", "mv"):
            ended = self.make("ima-collect --enroll --handle 0x81010008 made", **self.stand_in(tool, "exit 1"))
            self.check(f"no key, as {tool} fails", (ended.status, self.home.joinpath("made").exists(), self.hidden()), (3, False, []))
            self.check(f"none stays, as {tool} fails", self.persistent(), [HANDLE, "0x81010007"])
        lettered = "ima-collect --enroll --handle 0x8101000b made"
        self.check_made("a handle with a letter", self.make(lettered), ["AK.pub", "EK.der", "EK.pub"])
        self.check_made("its key signs", self.make(WITH_NONCE.replace("--nonce", "--handle 0x8101000B --nonce")), QUOTED)
        self.check_failed("a handle with a letter that is taken", self.make(lettered), "the handle 0x8101000b is taken: give another one")
        self.must("it is taken away", "tpm2_evictcontrol", "-c", "0x8101000b")

    def test_evidence(self):
        """A quote, log, list and registers, as they are, whichever of kernel and TPM shows the registers."""
        log, listed = (BOOT / "firmware.log").read_bytes(), list_spelling(ENTRIES)
        values = [line.split() for line in (BOOT / "expected.txt").read_text().splitlines()]
        wanted = [(bank, number, value.lower()) for bank, number, value in values if int(number) <= 10]
        folder = self.sys / "class/tpm/tpm0/pcr-sha256"
        for shown in ("tpm2_pcrread", "the kernel"):
            for title, block, names in (("a quote", WITH_NONCE, QUOTED), ("no quote", WITHOUT_NONCE, EVIDENCE)):
                self.check_made(f"{title}, and registers by {shown}", self.make(block), names)
                found = [self.home.joinpath("made", name).read_bytes() for name in EVIDENCE]
                rows = [tuple(line.lower().split()) for line in found[0].decode().splitlines()]
                self.check(f"{title}: registers by {shown}", rows, wanted)
                self.check(f"{title}: log and list", (found[1] == log, found[2] == listed), (True, True))
                self.check(f"{title}: for its owner alone", self.home.joinpath("made").stat().st_mode & 0o777, 0o700)
            folder.mkdir(parents=True, exist_ok=True)
            for _, number, value in wanted:
                folder.joinpath(number).write_text(f"{value.upper()}\n")
        self.check_made("a relative name of the kernel's files", self.make(WITHOUT_NONCE, sys="../sys"), EVIDENCE)
        lacking = self.tools_but()
        self.check_made("what the kernel shows, without tpm2-tools", self.make(WITHOUT_NONCE, PATH=lacking), EVIDENCE)
        self.check_failed("a quote without tpm2-tools", self.make(WITH_NONCE, PATH=lacking), "tpm2-tools are not there")
        shutil.rmtree(folder)
        self.check_failed("no registers", self.make(WITHOUT_NONCE, PATH=lacking), "neither the kernel nor tpm2_pcrread shows PCRs")
        section = re.search(r"^## Without a quote\n(.*?)^## ", (ROOT / "docs/attest.md").read_text(), re.MULTILINE | re.DOTALL)[1]
        block, *others = BLOCK.findall(section)
        [banks] = [other for other in others if "tpm2_pcrread" in other]
        shutil.rmtree(self.home / "evidence", ignore_errors=True)
        self.check_collected("attest.md: without a quote", self.on_machine(block), "evidence", EVIDENCE)
        self.check("attest.md: evidence", sorted(path.name for path in self.home.joinpath("evidence").iterdir()), EVIDENCE)
        self.check_quiet("attest.md: another bank", self.on_machine(banks))
        ended = self.call(["ima-agent", "expected", "--registers", "0-10", str(self.home / "pcrread.txt")])
        self.check("attest.md: its registers", [line.split()[:2] for line in ended.output.splitlines()], [["sha1", str(n)] for n in range(11)])

    def test_without_log(self):
        """The command of attest.md for a machine without a firmware log."""
        [block] = [block for block in BLOCK.findall((ROOT / "docs/attest.md").read_text()) if "pcr-sha256/10" in block]
        folder = self.sys / "class/tpm/tpm0/pcr-sha256"
        folder.mkdir(parents=True)
        self.addCleanup(shutil.rmtree, folder)
        [(_, _, value)] = [line.split() for line in (BOOT / "expected.txt").read_text().splitlines() if line.startswith("sha256 10 ")]
        folder.joinpath("10").write_text(f"{value}\n")
        ended = self.call(["bash", "-c", block.replace("/sys/", f"{self.sys}/")], folder=self.home)
        self.check_quiet("attest.md: PCR 10 and the list", ended)
        ended = self.call(["ima-agent", "replay", "--require", "sha256:10", "ima.list", "expected.txt"], folder=self.home)
        self.check("attest.md: the verdict on them", (ended.status, ended.last), (0, "verdict match"))

    def tools_but(self, *extra):
        """A PATH with what ima-collect needs of coreutils, and these tools."""
        folder = Path(self.folder, "some tools", *extra)
        if not folder.exists():
            folder.mkdir(parents=True)
            for tool in (*COREUTILS, *extra):
                folder.joinpath(tool).symlink_to(shutil.which(tool))
            folder.joinpath("ima-collect").symlink_to(self.bin / "ima-collect")
        return str(folder)

    def test_tools(self):
        """bash, coreutils and tpm2-tools are all that it calls."""
        path = self.tools_but(*TOOLS)
        self.check_made("a quote", self.make(WITH_NONCE, PATH=path), QUOTED)
        self.check_made("a key", self.make("ima-collect --enroll --handle 0x81010009 made", PATH=path), ["AK.pub", "EK.der", "EK.pub"])
        self.must("it is taken away", "tpm2_evictcontrol", "-c", "0x81010009")

    def test_growing(self):
        """All is read again while the list grows, five times at most, and that is said."""
        count, listed, tries = self.shown / "ima/runtime_measurements_count", self.shown / "ima/binary_runtime_measurements", self.folder / "tries"
        entries = [*ENTRIES, *(executable(b"/bin/%d" % number) for number in range(6))]
        self.addCleanup(self.has, ENTRIES)
        for number in range(7):
            self.put(f"list{number}", list_spelling(entries[: len(ENTRIES) + number]))
        grow = f"""n=$(cat '{tries}'); echo $((n + 1)) >'{tries}'; "$real" "$@" || exit
            ((n >= most)) || {{ cp '{self.folder}'/list$((n + 1)) '{listed}'; echo $(({len(ENTRIES)} + n + 1)) >'{count}'; }}"""
        gave_up = "ima-collect: the list grew each of 5 times: the verifier needs --prefix, or asks again\n"
        for tool, block, names in (("tpm2_quote", WITH_NONCE, QUOTED), ("tpm2_pcrread", WITHOUT_NONCE, EVIDENCE)):
            for most, said in ((0, ""), (1, ""), (4, ""), (5, gave_up)):
                tries.write_text("0")
                self.has(ENTRIES)
                ended = self.make(block, **self.stand_in(tool, f"most={most}\n{grow}"))
                self.check_made(f"{tool}: the list grows {most} times", ended, names, said)
                self.check(f"{tool}: how often it is read, as it grows {most} times", int(tries.read_text()), min(most + 1, 5))
                found = self.home.joinpath("made/ima.list").read_bytes()
                self.check(f"{tool}: the last list, as it grows {most} times", found == self.folder.joinpath(f"list{most}").read_bytes())

    def test_kernels(self):
        """A kernel that does not show all."""
        for title, names, words in (
            ("no list", ["ima/binary_runtime_measurements"], "shows no list of measurements"),
            ("no log", ["tpm0/binary_bios_measurements"], "shows no firmware log"),
            ("no count", ["ima/runtime_measurements_count"], "cannot read"), ("nothing", ["ima", "tpm0"], "shows no list of measurements"),
        ):
            other = self.folder / f"kernel with {title}"
            shutil.copytree(self.sys, other)
            for name in names:
                path = other / "kernel/security" / name
                shutil.rmtree(path) if path.is_dir() else path.unlink()
            for block in (WITH_NONCE, WITHOUT_NONCE):
                ended = self.make(block, sys=other)
                said = ended.errors.splitlines()
                found = (ended.status, words in said[-1] or said, self.home.joinpath("made").exists(), self.hidden())
                self.check(f"a kernel shows {title}: {block}", found, (3, True, False, []))
        for name in ("ima/binary_runtime_measurements", "tpm0/binary_bios_measurements"):
            other = self.folder / f"kernel with an empty {Path(name).name}"
            shutil.copytree(self.sys, other)
            other.joinpath("kernel/security", name).write_bytes(b"")
            self.check_failed(f"empty: {name}", self.make(WITH_NONCE, sys=other), "cannot be copied, or is empty")
            failing = self.stand_in("cat", f'"$real" "$@" && [[ ${{*: -1}} != */{name} ]]')
            self.check_failed(f"no copy is made of {name}", self.make(WITHOUT_NONCE, **failing), "cannot be copied, or is empty")

    def test_registers(self):
        """Who shows some of the registers, and then fails, shows none."""
        other, said = self.folder / "kernel with some registers", "neither the kernel nor tpm2_pcrread shows PCRs"
        shutil.copytree(self.sys, other)
        for number in {*range(11)} - {5}:
            path = other / f"class/tpm/tpm0/pcr-sha256/{number}"
            path.parent.mkdir(parents=True, exist_ok=True)
            path.write_text(f"{number:064X}\n")
        self.check_failed("a kernel without one of the registers", self.make(WITHOUT_NONCE, sys=other), said)
        for title, body in (("shows some registers, and fails", '"$real" "$@" | head -n 4; exit 1'),
                            ("shows some registers, and is killed", '"$real" "$@"; kill -KILL $$'), ("shows a bank without any", "echo '  sha256:'")):
            self.check_failed(f"tpm2_pcrread {title}", self.make(WITHOUT_NONCE, **self.stand_in("tpm2_pcrread", body)), said)

    def test_folders(self):
        """A folder that is there is left as it is."""
        there = self.home / "there"
        for title, make in (("a folder", Path.mkdir), ("a file", Path.touch), ("a link", lambda path: path.symlink_to(self.home / "none"))):
            make(there)
            before = there.lstat().st_ino
            for block in (WITH_NONCE, "ima-collect --enroll --handle 0x81010009 made", "ima-collect --credential credential made"):
                ended = self.make(block.replace("made", "there"))
                self.check(f"{title} is there: {block}", (ended.status, "is there already" in ended.errors, there.lstat().st_ino), (3, True, before))
            there.rmdir() if there.is_dir() else there.unlink()
        for name in ("-x", "a b", "$(touch called)", "deep/", "deep//", str(self.home / "absolute")):
            quoted = f"'{name}'"
            shown = name.rstrip("/").rpartition("/")[2]
            shown = shown if re.fullmatch(r"[\w.-]+", shown) else at(shown)
            self.check_collected(f"the folder {name}", self.make(WITHOUT_NONCE.replace("made", f"-- {quoted}")), shown, EVIDENCE)
            made = self.home / name
            self.check(f"it is {name}", (sorted(path.name for path in made.iterdir()), self.home.joinpath("called").exists()), (EVIDENCE, False))
            shutil.rmtree(made)
        self.check_failed("a folder in none", self.make(WITHOUT_NONCE.replace("made", "none/made")), "cannot be made")
        made, other = self.home / "made", self.folder / "another's"
        other.mkdir()
        other.joinpath("kept").touch()
        for title, body in (("a folder", f'cp -r "{other}" "{made}"'), ("a link to a folder", f'ln -s "{other}" "{made}"'),
                            ("a file", f'touch "{made}"')):
            ended = self.make(WITHOUT_NONCE, **self.stand_in("mv", f'{body}; exec "$real" "$@"'))
            self.check(f"{title} comes in the place of FOLDER", (ended.status, "'made' cannot be made" in ended.errors, self.hidden()), (3, True, []))
            names = sorted(path.name for path in made.iterdir()) if made.is_dir() else ["kept"]
            self.check(f"{title} comes in the place of FOLDER: nothing is in it", (names, made.is_symlink()), (["kept"], title.startswith("a link")))
            shutil.rmtree(made) if made.is_dir() and not made.is_symlink() else made.unlink()

    def test_swapped_folders(self):
        """Another folder comes in the place of the one that was made: nothing is written in it."""
        private, called = self.folder / "private", self.folder / "written"
        private.mkdir(0o700)
        private.joinpath("kept").touch()
        swaps = [(f"of the mode {mode}", f'chmod {mode} "$made"') for mode in ("0755", "0770", "0777", "1700", "0707", "4700")]
        swaps += [("with a file in it", 'touch "$made/ek.ctx"'), ("that is a link", f"rmdir \"$made\"; ln -s '{private}' \"$made\"")]
        if os.geteuid() == 0:
            swaps.append(("of another owner", 'chown nobody "$made"'))
        noting = self.stand_in("mkdir", f"echo >'{called}'; exec \"$real\" \"$@\"")["PATH"].partition(":")[0]
        for title, body in swaps:
            swapping = self.stand_in("mktemp", f'made=$("$real" "$@") && {{ {body}; }} && echo "$made"')
            swapping["PATH"] = f"{noting}:{swapping['PATH']}"
            for block in (WITHOUT_NONCE, "ima-collect --enroll --handle 0x81010009 made"):
                self.check_failed(f"a folder {title}: {block}", self.make(block, **swapping), "another folder came in its place")
                self.check(f"a folder {title}: {block}: nothing is made in it", called.exists(), False)
        self.check("the folder to which the link leads", [path.name for path in private.iterdir()], ["kept"])
        mode = self.home.stat().st_mode & 0o7777
        self.home.chmod(mode | 0o2000)
        self.check_made("a folder of which the group is that of the one above", self.make(WITHOUT_NONCE), EVIDENCE)
        self.home.chmod(mode)

    def test_credentials(self):
        """A credential that is not for this key is not opened."""
        self.home.joinpath("credential").write_bytes(bytes(336))
        self.check_failed("a credential of zeros", self.make("ima-collect --credential credential made"), "tpm2_activatecredential failed: ERROR: ")
        self.check_failed("no credential", self.make("ima-collect --credential none made"), "cannot read")
        self.check_failed("a folder for one", self.make("ima-collect --credential . made"), "cannot read")
        for tool in ("tpm2_createek", "tpm2_startauthsession", "tpm2_policysecret", "tpm2_activatecredential"):
            failing = self.stand_in(tool, "printf '%s\\n' 'WARN: a word' 'ERROR: a sentence' 'ERROR: another' >&2; exit 1")
            ended = self.make("ima-collect --credential credential made", **failing)
            self.check_failed(f"{tool} fails", ended, f"{tool} failed: ERROR: a sentence\n")

    def test_stopped(self):
        """A call that is stopped leaves no folder, key or session."""
        called = self.folder / "called"
        making, answering = "ima-collect --enroll --handle 0x81010009 made", "ima-collect --credential credential made"
        waiting = f"echo > '{called}'; sleep 1"
        removing = f'[[ $4 != 0x* ]] || {{ {waiting}; }}; exec "$real" "$@"'
        for title, tools, block in (("a quote", {"tpm2_quote": f"{waiting}; exit 1"}, WITH_NONCE),
                                    ("a session", {"tpm2_policysecret": f"{waiting}; exit 1"}, answering),
                                    ("a key", {"tpm2_createak": f"{waiting}; exit 1"}, making),
                                    ("a key that stays", {"mv": f"{waiting}; exit 1"}, making),
                                    ("a call that ends already", {"mv": "exit 1", "tpm2_evictcontrol": removing}, making)):
            settings = self.stand_ins(tools)
            words = block.replace("--nonce", f"--sys {self.sys} --nonce").split()
            process = subprocess.Popen(words, cwd=self.home, env={**self.environment, **settings}, stderr=subprocess.DEVNULL, start_new_session=True)
            end = time.monotonic() + SECONDS
            while not called.exists() and time.monotonic() < end:
                time.sleep(0.05)
            process.send_signal(signal.SIGTERM)
            found = (process.wait(SECONDS) in (0, 1), self.home.joinpath("made").exists(), self.hidden(), self.persistent())
            self.check(f"{title} is stopped", found, (False, False, [], [HANDLE, "0x81010007"]))
            self.check(f"{title} is stopped: nothing is left", self.left_in_tpm(), ["", "", ""])
            called.unlink()

    def test_objects(self):
        """Objects and sessions of others stay as they are."""
        self.must("room is made", "tpm2_flushcontext", "--transient-object")
        self.must("an object of another", "tpm2_createprimary", "-C", "o", "-c", "others.ctx")
        self.must("a session of another", "tpm2_startauthsession", "--policy-session", "-S", "others.session")
        before = self.left_in_tpm()
        shutil.rmtree(self.home / "made", ignore_errors=True)
        words = ["ima-collect", "--nonce", NONCE, "--sys", str(self.sys), "made"]
        ended = self.call(words, folder=self.home, PATH=f"{self.bin}:{os.environ['PATH']}")
        self.check_made("a quote beside them", ended, QUOTED)
        self.check("they are there still", (self.left_in_tpm(), before[0].strip()), (before, "- 0x80000000"))
        self.must("the session ends", "tpm2_flushcontext", "others.session")

    def test_unreachable(self):
        """No TPM; one that answers, and quotes in the same call; and one that is locked."""
        self.check_failed("no TPM", self.make(WITH_NONCE, TPM2TOOLS_TCTI="swtpm:host=127.0.0.1,port=1"), "no TPM 2.0 answers")
        ended = self.make("ima-collect --enroll --handle 0x81010009 made", TPM2TOOLS_TCTI="device:/dev/none")
        self.check_failed("no TPM for a key", ended, "no TPM 2.0 answers")
        for kind in ("transient", "persistent"):
            failing = self.stand_in("tpm2_getcap", f'[[ $1 != handles-{kind} ]] || exit 1; exec "$real" "$@"')
            self.check_failed(f"a TPM that does not tell of its {kind} objects", self.make(WITH_NONCE, **failing), "no TPM 2.0 answers")
        self.must("the key's name", "tpm2_readpublic", "-c", HANDLE, "-n", "name")
        self.must("the endorsement key", "tpm2_createek", "-c", "ek.ctx", "-G", "rsa", "-u", "EK.pub")
        name = self.home.joinpath("name").read_bytes().hex()
        self.home.joinpath("secret").write_bytes(bytes(32))
        self.must("a credential", "tpm2_makecredential", "-T", "none", "-u", "EK.pub", "-s", "secret", "-n", name, "-o", "credential")
        self.check_made("an answer", self.make("ima-collect --credential credential made"), ["answer"])
        self.check("the answer", self.home.joinpath("made/answer").read_bytes(), bytes(32))
        for words in (f"--nonce {NONCE} --credential credential", f"--handle {HANDLE} --credential credential --nonce {NONCE}"):
            block = f"ima-collect {words} made"
            self.check_made("an answer and a quote", self.make(block), ["answer", *QUOTED])
            self.check("the answer beside a quote", self.home.joinpath("made/answer").read_bytes(), bytes(32))
            message = self.home.joinpath("made/quote.msg").read_bytes()
            self.check("the quote beside an answer", bytes.fromhex(NONCE) in message)
        self.must("a lock", "tpm2_dictionarylockout", "-s", "-n", "1", "-t", "10000", "-l", "10000")
        self.must("a parent", "tpm2_createprimary", "-C", "o", "-c", "parent.ctx")
        self.must("a key with a password", "tpm2_create", "-C", "parent.ctx", "-p", "right", "-G", "rsa", "-c", "child.ctx")
        ended = self.call(["tpm2_sign", "-c", "child.ctx", "-p", "wrong", "-g", "sha256", "-o", "child.sig", "told"], folder=self.home)
        self.check("a wrong password", ended.status != 0)
        self.check_failed("a TPM that is locked", self.make(WITH_NONCE), "the TPM is locked")
        self.check_failed("a TPM that is locked, and a credential", self.make("ima-collect --credential credential made"), "the TPM is locked")


class CollectCalls(AttestTests):
    """Wrong calls."""

    def test_wrong_calls(self):
        """A wrong call is refused before anything is read."""
        for title, words in (
            ("no arguments", []), ("no folder", ["--enroll"]), ("an empty folder", [""]), ("two folders", ["a", "b"]),
            ("an unknown option", ["-x", "a"]), ("a key twice", ["--enroll", "--enroll", "a"]),
            ("a key and a quote", ["--enroll", "--nonce", NONCE, "a"]), ("a key and an answer", ["--enroll", "--credential", "b", "a"]),
            ("a nonce twice", ["--nonce", NONCE, "--nonce", NONCE, "a"]), ("a value for --enroll", ["--enroll=1", "a"]),
            ("a short nonce", ["--nonce", "00" * 15, "a"]), ("a long nonce", ["--nonce", "00" * 65, "a"]),
            ("half a byte", ["--nonce", "0" * 33, "a"]), ("a nonce that is none", ["--nonce", "g" * 40, "a"]),
            ("a nonce of two lines", ["--nonce", f"{NONCE}\n", "a"]), ("an empty nonce", ["--nonce=", "a"]),
            ("a handle that is none", ["--enroll", "--handle", "owner", "a"]),
            ("a handle of what does not stay", ["--enroll", "--handle", "0x80000000", "a"]),
            ("a handle of nine digits", ["--enroll", "--handle", "0x810100022", "a"]),
            ("a handle of seven digits", ["--enroll", "--handle", "0x8101000", "a"]), ("a handle without a key", ["--handle", HANDLE, "a"]),
            ("a kernel for a key", ["--enroll", "--sys", "b", "a"]), ("--nonce without a value", ["a", "--nonce"]),
            ("--credential without a value", ["a", "--credential"]),
        ):
            ended = self.call(["ima-collect", *words])
            self.check(f"a wrong call: {title}", (ended.status, ended.output, USAGE in ended.errors or ended.errors), (64, "", True))
        for size in (16, 64):
            ended = self.call(["ima-collect", "--nonce", "00" * size, "a"], TPM2TOOLS_TCTI="none")
            self.check(f"no wrong call: a nonce of {size} bytes, and no TPM", (ended.status, ended.output, USAGE in ended.errors), (3, "", False))
        options = (f"--nonce={NONCE}", f"--handle={HANDLE}", "--credential=b", "--sys=c")
        ended = self.call(["ima-collect", *options, "a"], TPM2TOOLS_TCTI="none")
        self.check("no wrong call: options as one word each", (ended.status, ended.output, USAGE in ended.errors), (3, "", False))
        for asked in (["--help"], ["-h"], ["--enroll", "--help"]):
            ended = self.call(["ima-collect", *asked])
            told = [word in ended.output or word for word in ("--enroll", "--credential", "--nonce", "--handle", "--sys", " 0 ", " 64 ")]
            self.check(f"help: {asked[-1]}", (ended.status, told, ended.errors), (64, [True] * 7, ""))
        self.check("an output that fails", self.call(["bash", "-c", "ima-collect --help >/dev/full"]).status, 3)
