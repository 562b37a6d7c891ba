#!/usr/bin/env python3
"""Runs test scripts on a machine that lacks each tool and each module of Python without which they try less: they name what they lack, and nothing
fails.

tests/faults/lacking.py PROGRAM LIBRARY: the program, and the library for C. PATH leads to links to all other tools, and a finder that comes before
those of Python hides the modules. (What `tests/dist/test` installs has a PATH of its own.)"""

import fnmatch
import os
import subprocess
import sys
from pathlib import Path

sys.path[:0] = [str(Path(__file__).resolve().parents[1])]
import harness  # noqa: E402

TOOLS = ("swtpm*", "tpm2*", "openssl", "jq", "go", "gofmt", "cargo*", "rust*", "mypy*", "pytest*", "ruff", "*staticcheck", "chromium*",
         "systemd-analyze", "promtool", "localedef", "git")
MODULES = ("cryptography", "dask", "distributed", "fsspec", "hatchling", "jinja2", "mypy", "prometheus_client", "yaml")
HIDING = """
import sys

class Finder:
    @staticmethod
    def find_spec(name, path=None, target=None):
        if name.partition(".")[0] in {modules}:
            raise ModuleNotFoundError(f"No module named {{name!r}}", name=name)

sys.meta_path.insert(0, Finder)
"""
# What each script names.
SCRIPTS = {
    "tests/attest/test PROGRAM": ("openssl", "swtpm", "tpm2_quote", "localedef"),
    "tests/fleet/test FOLDER": ("fsspec",),
    "tests/faults/signatures.py": ("cryptography",),
    "tests/faults/key_texts.py": ("cryptography",),
    "tests/pages/recipes.py PROGRAM": ("jq",),
    "tests/cases/run PROGRAM attest/signatures-by-rsa": ("cryptography",),
}
SECONDS = 600


class Lacking(harness.TestCase):
    def test_scripts(self):
        program, library = (Path(word).resolve() for word in sys.argv[1:])
        files, settings = {"PROGRAM": program, "FOLDER": library.parent}, self.machine(self.folder())
        for script, lacking in SCRIPTS.items():
            words = [files.get(word, word) for word in script.split()]
            ended = subprocess.run([sys.executable, *words], cwd=harness.ROOT, env=settings, stdin=subprocess.DEVNULL, stdout=subprocess.PIPE,
                                   stderr=subprocess.STDOUT, timeout=SECONDS, text=True, errors="replace")
            said = [line for line in ended.stdout.splitlines() if line.startswith("not tried: ")]
            self.check(f"{words[0]} names what it lacks", [name for name in lacking if not any(name in line for line in said)], [])
            is_good = ended.returncode == 0 and ended.stdout.endswith(" passed, 0 failed\n") and "Traceback" not in ended.stdout
            self.check(f"{words[0]}: nothing fails", None if is_good else f"status {ended.returncode}\n{ended.stdout}", None)

    @staticmethod
    def machine(folder):
        """The environment of processes on such a machine."""
        tools, modules = folder / "tools", folder / "modules"
        for made in (tools, modules):
            made.mkdir()
        (modules / "sitecustomize.py").write_text(HIDING.format(modules=MODULES))
        found = {tool.name: tool for path in reversed(os.get_exec_path()) if os.path.isdir(path) for tool in Path(path).iterdir()}
        for name, tool in found.items():
            if not any(fnmatch.fnmatch(name, each) for each in TOOLS):
                (tools / name).symlink_to(tool)
        return {**os.environ, "PATH": str(tools), "PYTHONPATH": str(modules)}


if __name__ == "__main__":
    if len(sys.argv) != 3:
        sys.exit("usage: tests/faults/lacking.py PROGRAM LIBRARY")
    sys.exit(harness.main())
