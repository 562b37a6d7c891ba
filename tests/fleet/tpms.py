"""Emulated TPMs (swtpm), each of a machine of its own, which boots, measures, suspends, and makes quotes by tpm2-tools."""

import os
import socket
import subprocess
import sys
import time
from dataclasses import dataclass
from pathlib import Path
from typing import Optional

sys.path.append(str(Path(__file__).resolve().parents[1] / "attest"))

from emulated import TRIES, free_ports  # noqa: E402
from reference.registers import SHA256  # noqa: E402

NEEDED = ("swtpm", "swtpm_ioctl", "tpm2_startup", "tpm2_shutdown", "tpm2_createprimary", "tpm2_evictcontrol", "tpm2_readpublic", "tpm2_pcrextend",
          "tpm2_quote", "tpm2_print", "openssl")
HANDLE = "0x81010002"  # of the attestation key
ATTRIBUTES = "fixedtpm|fixedparent|sensitivedataorigin|userwithauth|restricted|sign"
LOW = ",".join(map(str, range(11)))
SECONDS = 240  # (a limit for what is to come: the computer may have much else to do than to make a key)


@dataclass
class Tpm:
    """The TPM of a machine, whose state is in a folder, and whose key is of this kind of tpm2-tools."""

    folder: Path
    kind: str
    emulator: Optional[subprocess.Popen] = None
    port: int = 0

    @property
    def key(self):
        """The PEM of its attestation key."""
        return self.folder / "key.pem"

    @property
    def area(self):
        """Its public area."""
        return self.folder / "key.pub"

    def tool(self, *words):
        """Runs one of tpm2-tools, which has to succeed: what it prints."""
        environment = {**os.environ, "TPM2TOOLS_TCTI": f"swtpm:host=127.0.0.1,port={self.port}"}
        ended = subprocess.run([str(word) for word in words], env=environment, capture_output=True, timeout=SECONDS)
        if ended.returncode:
            raise RuntimeError(f"{words[0]} ended with status {ended.returncode}: {ended.stderr.decode()}")
        return ended.stdout.decode()

    def start(self, *words):
        """Starts the emulator, as power comes to the TPM, and then the TPM by these words of tpm2_startup."""
        self.folder.mkdir(exist_ok=True)
        if not any(self.is_started() for _ in range(TRIES)):
            raise RuntimeError("swtpm does not answer")
        self.tool("tpm2_startup", *words)

    def is_started(self):
        """Whether the emulator is started, at ports that are free. It ends if another process takes one of them meanwhile."""
        self.port, control = free_ports()
        self.emulator = subprocess.Popen(
            ["swtpm", "socket", "--tpm2", "--tpmstate", f"dir={self.folder}", "--flags", "not-need-init", "--server",
             f"type=tcp,bindaddr=127.0.0.1,port={self.port}", "--ctrl", f"type=tcp,bindaddr=127.0.0.1,port={control}"],
            stdout=subprocess.DEVNULL, stderr=subprocess.DEVNULL,
        )
        limit = time.monotonic() + SECONDS
        while not is_listening(self.port):
            if time.monotonic() > limit or self.emulator.poll() is not None:
                self.stop()
                return False
            time.sleep(0.02)
        return True

    def stop(self):
        """Takes the power from the TPM."""
        if self.emulator is not None:
            self.emulator.kill()
            self.emulator.wait()

    def make_key(self):
        """Makes the attestation key, which stays, its PEM and its public area."""
        context = self.folder / "key.ctx"
        self.tool("tpm2_createprimary", "-C", "e", "-G", self.kind, "-a", ATTRIBUTES, "-c", context)
        self.tool("tpm2_evictcontrol", "-C", "o", "-c", context, HANDLE)
        self.tool("tpm2_readpublic", "-c", HANDLE, "-f", "pem", "-o", self.key)
        self.tool("tpm2_readpublic", "-c", HANDLE, "-o", self.area)

    def boot(self, log):
        """Starts anew, and measures what the events of a log say."""
        if self.emulator is not None:
            self.tool("tpm2_shutdown", "--clear")
            self.stop()
        self.start("--clear")
        self.extend([(event.register, event.digest_of) for event in log.events if event.is_extended])

    def suspend(self):
        """Loses its power, but for its registers."""
        self.tool("tpm2_shutdown")
        self.stop()
        self.start()

    def measure(self, entries):
        """Measures the entries of a list."""
        self.extend([(entry.register, entry.digest_of) for entry in entries])

    def extend(self, digests):
        if digests:
            self.tool("tpm2_pcrextend", *(f"{register}:sha256={digest_of(SHA256).hex()}" for register, digest_of in digests))

    def quote(self, nonce, folder, selection=f"sha256:{LOW}"):
        """Puts a quote with this nonce, in hexadecimal digits, into a folder."""
        scheme = self.kind.split(":")[1].partition("-")[0]
        files = "-m", folder / "quote.msg", "-s", folder / "quote.sig"
        self.tool("tpm2_quote", "-c", HANDLE, "-l", selection, "-q", nonce, "--scheme", scheme, "-g", "sha256", "-f", "plain", *files)


def is_listening(port):
    with socket.socket() as tried:
        return tried.connect_ex(("127.0.0.1", port)) == 0
