"""Where a release is made and installed, how commands run there, and what they must answer."""

import difflib
import os
import re
import shutil
import stat
import subprocess
import sys
import tempfile
from pathlib import Path
from typing import NamedTuple

from harness import ROOT

PATH = "/usr/bin:/bin"
WARNINGS = ("-Wall", "-Wextra", "-Wpedantic", "-Werror")
MULTIARCH = "/usr/lib/x86_64-linux-gnu"
DIFFERING = "differ a2bcf779880ae33077f9e7992851299f30cea5f6cffc6512de6cd10aa457a7f3"

made = tempfile.TemporaryDirectory()  # (removed at exit)
FOLDER = Path(made.name)
RELEASE, TARGET = FOLDER / "release", FOLDER / "root"
PREFIX = TARGET / "usr/local"
BOOT = PREFIX / "share/ima-agent/samples/real-boot"
LOG, LIST, EXPECTED = (BOOT / name for name in ("firmware.log", "ima.list", "expected.txt"))
LONGER, CHANGED = FOLDER / "longer.list", FOLDER / "changed.list"

# The files of a release but for its samples, by folder: those that are programs, all others, and what goes with the fleet's wheel.
PROGRAMS = {"": ["install"], "bin/": ["ima-agent", "ima-attest", "ima-collect", "ima-enroll"], "lib/": ["libima_verify.so.1"]}
DOCS = ["CHANGELOG.md", "VERSION", "attest.md", "cli.md", "errors.txt", "event-data.md", "examples.txt", "formats.md", "ima-agent.spdx.json",
        "investigate.md", "json.md", "layouts.txt", "library.md", "reports.txt", "schema.json", "standards.txt", "trust.md", "trust.svg",
        "verdict.md"]
OTHERS = {
    "": ["README.md", "SHA256SUMS"], "debug/": ["ima-agent.debug", "libima_verify.so.1.debug"], "include/": ["ima_verify.h", "ima_verify_evp.h"],
    "lib/": ["libima_verify.a", "libima_verify.so", "pkgconfig/ima_verify.pc"], "share/doc/ima-agent/": DOCS,
    "share/": ["bash-completion/completions/ima-agent", "fish/vendor_completions.d/ima-agent.fish", "ima-agent/example.c", "ima-agent/judge_quote.c",
               "zsh/site-functions/_ima-agent"],
    "share/man/": ["man1/ima-agent.1", "man1/ima-attest.1", "man1/ima-collect.1", "man1/ima-enroll.1", "man3/ima_verify.3"],
}
FLEET = {
    "share/doc/ima-agent/": ["fleet.md"], "share/man/man1/": ["fleet-verify.1", "ima-report.1"],
    "share/ima-agent/systemd/": ["fleet-poll.service", "fleet-poll.timer", "fleet-verify.conf", "poll.conf"],
    "share/ima-agent/grafana/": ["alerts.yaml", "dashboard.json", "fleet.prom"],
    "share/ima-agent/python/": ["fleet_verify-VERSION-py3-none-any.whl", "ima_verify-VERSION-py3-none-manylinux_2_N_x86_64.whl"],
}


def lines_of(data):
    return data.decode(errors="backslashreplace").split("\n")


class Ended(NamedTuple):
    """What came of a command."""

    status: int
    output: bytes
    errors: bytes

    @property
    def text(self):
        return "\n".join([f"status {self.status}", *lines_of(self.output + self.errors)])

    @property
    def lines(self):
        return lines_of(self.output)

    @property
    def fault(self):
        """All that came of the command, if it failed."""
        return self.text if self.status else None

    def refusal(self, words):
        """All that came of the command, unless it failed and said these words."""
        return None if self.status and words in self.text else self.text

    def unlike(self, status, output=None):
        """The status, the errors and the difference of the output, unless the command has this status, and this output if one is given."""
        if self.status == status and output in (None, self.output):
            return None
        differences = difflib.unified_diff(lines_of(output or b""), lines_of(self.output), lineterm="", n=0)
        return "\n".join([f"status {self.status}, and not {status}", *lines_of(self.errors), *differences])


def run(*words, **options):
    """Runs a command without input. One that cannot be started has the status that a shell gives it."""
    try:
        ended = subprocess.run(words, stdin=subprocess.DEVNULL, stdout=subprocess.PIPE, stderr=subprocess.PIPE, **options)
    except OSError as error:
        return Ended(127, b"", str(error).encode())
    return Ended(ended.returncode, ended.stdout, ended.stderr)


def bare(*words, libraries="", modules="", umask=-1, **settings):
    """Runs a command with nothing of the caller's environment, and no kit."""
    return run(*words, umask=umask, env={"PATH": PATH, "LD_LIBRARY_PATH": libraries, "PYTHONPATH": modules, **settings})


def script(name, *words, umask=-1, **settings):
    """Runs a script of the tree, which leaves nothing beside it."""
    return run(sys.executable, "-B", ROOT / name, *words, umask=umask, env={**os.environ, **settings})


def make(folder, umask=-1, **settings):
    """Makes a release, of the program and the archive that the arguments name."""
    return run(ROOT / "dist/make", folder, *sys.argv[1:], umask=umask, env={**os.environ, **settings})


def copied(source, target, how="-a"):
    """A copy of a folder, as cp makes it."""
    subprocess.run(["cp", how, "--", source, target], check=True)
    return target


def append(file):
    """Damages a file."""
    with open(file, "ab") as out:
        out.write(b"x")


def tree_of(folder):
    """By name, the mode, the link and the time of a folder, and of all that is in it."""
    return {str(path.relative_to(folder)): (stat.filemode(path.lstat().st_mode), os.readlink(path) if path.is_symlink() else None,
                                            path.lstat().st_mtime_ns) for path in (folder, *folder.rglob("*"))}


def files_of(folder):
    """The names of all in a folder that is no folder."""
    return [name for name, (mode, *_) in tree_of(folder).items() if mode[0] != "d"]


def named(*tables):
    """The names of the files in tables by folder."""
    return {folder + name for table in tables for folder, names in table.items() for name in names}


def samples():
    """The names of the samples in a release: those of the tree, but for what made them."""
    files = [path for path in (ROOT / "samples").rglob("*") if path.is_file() and "__pycache__" not in path.parts]
    return {f"share/ima-agent/{path.relative_to(ROOT)}" for path in files if path.suffix != ".py"}


def unnumbered(names):
    """Names of files, of which those of wheels have no versions."""
    version = (ROOT / "VERSION").read_text().strip()
    return {re.sub(r"manylinux_2_\d+_", "manylinux_2_N_", name.replace(f"-{version}-py3-", "-VERSION-py3-")) for name in names}


def is_executable(file):
    return os.access(file, os.X_OK)


def flags(root, libdir):
    """The compiler's flags for what is installed below a root: by pkg-config, or by the file that it reads."""
    file = Path(f"{root}{libdir}/pkgconfig/ima_verify.pc")
    if shutil.which("pkg-config", path=PATH):
        settings = {"PKG_CONFIG_SYSROOT_DIR": root, "PKG_CONFIG_LIBDIR": file.parent,
                    "PKG_CONFIG_ALLOW_SYSTEM_CFLAGS": "1", "PKG_CONFIG_ALLOW_SYSTEM_LIBS": "1"}
        return bare("pkg-config", "--cflags", "--libs", "ima_verify", **settings).output.decode().split()
    prefix = re.search(r"^prefix=(.*)", file.read_text(), re.MULTILINE)[1]
    return [f"-I{root}{prefix}/include", f"-L{root}{libdir}", "-lima_verify"]


def compiled(program, source, root=TARGET, libdir="/usr/local/lib", library="-lima_verify"):
    """Compiles a program with what is installed."""
    words = [library if word == "-lima_verify" else word for word in flags(root, libdir)]
    return bare("cc", "-std=c99", *WARNINGS, "-o", FOLDER / program, source, *words)


def report(entries, state, verdict):
    """What `verify` prints of so many entries, with this state of register 10."""
    rows = [line.split()[:2] for line in EXPECTED.read_text().splitlines()]
    rows = [f"{algorithm} {register} {state if register == '10' else 'match'}" for algorithm, register in rows]
    return "\n".join(["events 24 locality 0", f"entries {entries}", "boot_aggregate good", *rows, f"verdict {verdict}", ""]).encode()


def verdicts():
    """By list, what `verify` answers: its status and its output."""
    return {LIST: (0, report(99, "match", "match")), LONGER: (1, report(100, DIFFERING, "differ")),
            CHANGED: (2, b"refused: replay fault 1 at entry 5\n")}
