"""Runs the commands of docs/fleet.md as they are on the page, on a machine whose TPM is emulated and has the sample boot in its registers.

The blocks for a system with packages are run by tests/dist/test."""

import os
import re
import shutil
import signal
import socket
import subprocess
import sys
from contextlib import contextmanager
from dataclasses import dataclass

import harness
from cluster import ROOT, SECONDS

sys.path.append(str(ROOT / "tests/attest"))
from emulated import BOOT, emulated, read_list  # noqa: E402

BLOCK = re.compile(r"^```sh\n(.*?)^```$", re.MULTILINE | re.DOTALL)
HANDLE = "0x81010002"  # (of the key that `ima-collect --enroll` makes)
KERNEL = {"firmware.log": "tpm0/binary_bios_measurements", "ima.list": "ima/binary_runtime_measurements"}
EVIDENCE = ["expected.txt", "firmware.log", "ima.list", "quote.msg", "quote.sig"]
# What only the block has.
NONCES, COLLECT, CERTIFICATE, SETTINGS = "fleet-verify nonces", "ima-collect", "openssl req", "export DASK_"
SCHEDULER, WORKERS, RUN, CLUSTER = "dask-scheduler", "dask-worker", "--workers 4", "--scheduler tls"
UNQUOTED, PAGES, OF_SYSTEM = "samples.tsv", "page.html", "systemctl enable"
RUN_HERE = (NONCES, COLLECT, RUN, UNQUOTED, PAGES, CERTIFICATE, SETTINGS, SCHEDULER, WORKERS, CLUSTER)
# The commands that are installed, and what they are here.
COMMANDS = {
    "fleet-verify": "{python} {root}/fleet/verify.py", "ima-report": "{python} {root}/fleet/report.py",
    "ima-collect": "{root}/attest/collect --sys {folder}/sys", "ima-agent": "{program}",
    "dask-scheduler": "{python} -m distributed.cli.dask_scheduler --host 127.0.0.1",
    "dask-worker": "{python} -m distributed.cli.dask_worker --host 127.0.0.1 --local-directory {folder}",
}


def free_port():
    with socket.socket() as bound:
        bound.bind(("127.0.0.1", 0))
        return bound.getsockname()[1]


@dataclass
class Reader:
    """Who does what the page says, in a folder, with the commands on PATH. The machines' folders are in it, and the cluster is this computer."""

    tools: object
    folder: object
    environment: dict
    program: object

    def __post_init__(self):
        self.blocks = BLOCK.findall((ROOT / "docs/fleet.md").read_text())
        self.port = free_port()
        for path in ("bin", "boot/host-1", "keys", "sys/kernel/security/tpm0", "sys/kernel/security/ima"):
            (self.folder / path).mkdir(parents=True)
        for name, path in KERNEL.items():
            shutil.copy(BOOT / name, self.folder / "sys/kernel/security" / path)
        entries = len(read_list((BOOT / "ima.list").read_bytes()))
        (self.folder / "sys/kernel/security/ima/runtime_measurements_count").write_text(f"{entries}\n")
        (self.folder / "samples").symlink_to(ROOT / "samples")
        for name, words in COMMANDS.items():
            command = self.folder / "bin" / name
            command.write_text(f'#!/bin/sh\nexec {words.format(root=ROOT, **vars(self), python=self.tools.python)} "$@"\n')
            command.chmod(0o755)

    def block(self, mark):
        """The block with this mark, with paths and addresses that are here."""
        [block] = [block for block in self.blocks if mark in block]
        return block.replace("/srv/boot", f"{self.folder}/boot").replace("scheduler.example.com", "127.0.0.1").replace("8786", str(self.port))

    def started(self, *texts, **settings):
        """A shell that runs these, in a session of its own."""
        path = f"{self.folder}/bin:{self.environment['PATH']}"
        return subprocess.Popen(["bash", "-euc", "".join(texts)], cwd=self.folder, env={**self.environment, "PATH": path, **settings}, text=True,
                                stdin=subprocess.DEVNULL, stdout=subprocess.PIPE, stderr=subprocess.PIPE, start_new_session=True)

    def ran(self, *texts, **settings):
        """The status of these, the first line that they print, and if they fail what they say is wrong."""
        process = self.started(*texts, **settings)
        output, errors = process.communicate(timeout=SECONDS)
        return process.returncode, output.partition("\n")[0], errors[-2000:] if process.returncode else ""

    @contextmanager
    def running(self, *texts):
        """What these start runs meanwhile, and is ended."""
        process = self.started(*texts)
        try:
            yield
        finally:
            os.killpg(process.pid, signal.SIGTERM)
            process.communicate(timeout=SECONDS)


def test_recipes(tools):
    """The commands of docs/fleet.md"""
    tools.needs("bash", "openssl", "swtpm", "tpm2_quote")
    tools.needs_modules("cryptography")
    folder = tools.folder / "page"
    folder.mkdir()
    with emulated() as environment:
        reader = Reader(tools, folder, {**environment, **{name: tools.environment[name] for name in tools.environment if name != "PATH"}},
                        os.environ.get("IMA_AGENT", harness.PROGRAM))
        enroll(reader)
        collect(reader, "on one computer")
        tools.check("the page: a run", reader.ran(reader.block(RUN)), (0, "match 1", ""))
        tools.check("the page: a run without quotes", reader.ran(reader.block(UNQUOTED)), (0, "match 1", ""))
        if tools.has_dask:
            (folder / "verdicts.db").unlink()
            collect(reader, "on a cluster")
            test_cluster(reader)
    left = [block for block in reader.blocks if sum(mark in block for mark in (*RUN_HERE, OF_SYSTEM)) != 1]
    tools.check("the page: each block is run", (left, len(reader.blocks)), ([], len(RUN_HERE) + 1))
    test_pages_of(reader)
    tools.needs_dask()


def enroll(reader):
    """Makes the machine's key, and keeps its public part."""
    kept = f"tpm2_readpublic -Q -c {HANDLE} -o keys/host-1.pub"
    reader.tools.check("the page: a key", reader.ran(f"{ROOT}/attest/collect --enroll enroll\n{kept}"), (0, "", ""))


def collect(reader, where):
    """Gives out the machine's nonce, collects its evidence, and brings that to the verifier."""
    machine = reader.folder / "boot/host-1"
    shutil.rmtree(reader.folder / "evidence", ignore_errors=True)
    given = reader.ran(reader.block(NONCES))
    nonce = (reader.folder / "nonces/host-1").read_text().strip() if given[0] == 0 else ""
    reader.tools.check(f"the page: nonces {where}", (given, bool(re.fullmatch("[0-9a-f]{64}", nonce))), ((0, "", ""), True))
    reader.tools.check(f"the page: evidence {where}", reader.ran(reader.block(COLLECT), nonce=nonce), (0, "", ""))
    shutil.copytree(reader.folder / "evidence", machine, dirs_exist_ok=True)
    reader.tools.check(f"the page: files {where}", sorted(path.name for path in machine.iterdir()), EVIDENCE)


def test_pages_of(reader):
    """The page of the table, and the one of a machine, for which the program has to be there."""
    reader.tools.needs_modules("jinja2")
    fleet, machine = reader.block(PAGES).splitlines()
    for line in (fleet, machine):
        reader.tools.lacks(*(["program ima-agent"] if line == machine and not os.access(reader.program, os.X_OK) else []))
        made = reader.ran(line)
        text = (reader.folder / line.split()[-1]).read_text()
        reader.tools.check(f"the page: {line.split()[0]} makes one", (made, text.startswith("<!DOCTYPE html>"), "match" in text), ((0, "", ""), True, True))


def test_cluster(reader):
    """A scheduler, workers and a run, with a certificate."""
    settings = reader.block(SETTINGS)
    reader.tools.check("the page: a certificate", reader.ran(reader.block(CERTIFICATE))[0], 0)
    with reader.running(settings, reader.block(SCHEDULER)), reader.running(settings, reader.block(WORKERS)):
        reader.tools.check("the page: a run on a cluster", reader.ran(settings, reader.block(CLUSTER)), (0, "match 1", ""))
