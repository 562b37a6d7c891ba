"""The examples of the docstrings, and how the library is found and packed."""

import doctest
import inspect
import os
import runpy
import shutil
import subprocess
import sys
import tempfile
import types
import unittest
from contextlib import nullcontext
from pathlib import Path
from unittest.mock import patch

from samples import EXPECTED, LIST, LOG, ROOT

import ima_verify
from ima_verify import _library

PACKAGE, SAMPLE = ROOT / "bindings/python", ROOT / "samples/real-boot"
HIDDEN = shutil.ignore_patterns("*.so", "__pycache__")
CALLS = [name for name in ima_verify.__all__ if inspect.isfunction(getattr(ima_verify, name))]
FOUND = "from ima_verify import _library, registers; registers(open({!r}, 'rb').read())\n" \
        "print(_library.loaded()._name)".format(str(SAMPLE / "firmware.log"))


class Temporary(unittest.TestCase):
    def setUp(self):
        self.folder = Path(tempfile.mkdtemp()).resolve()
        self.addCleanup(shutil.rmtree, self.folder)
        self.addCleanup(os.chdir, os.getcwd())

    def check_found(self, named, used, error="", **settings):
        """A program that names a library uses this one, or has an error."""
        environment = {**os.environ, "PYTHONPATH": str(PACKAGE), "IMA_VERIFY_LIBRARY": str(named)}
        words = [sys.executable, "-B", "-c", FOUND]
        ended = subprocess.run(words, cwd=self.folder, env={**environment, **settings},
                               capture_output=True, text=True)
        self.assertEqual((ended.stdout, bool(ended.stderr)), (used and f"{used}\n", bool(error)))
        self.assertIn(error, ended.stderr)


class Examples(Temporary):
    def test_each_call_has_an_example_that_holds(self):
        os.chdir(SAMPLE)
        names = {"ima_verify": ima_verify, "Path": Path, "log": LOG, "measurements": LIST,
                 "expected": EXPECTED}
        finder, runner, said = doctest.DocTestFinder(), doctest.DocTestRunner(), []
        found = {name: finder.find(getattr(ima_verify, name), name, globs=dict(names))
                 for name in [*CALLS, "Session"]}
        found["ima_verify"] = doctest.DocTestFinder(recurse=False).find(ima_verify, globs={})
        for name, tests in found.items():
            results = [runner.run(test, out=said.append) for test in tests]
            self.assertGreater(sum(result.attempted for result in results), 0, name)
        self.assertEqual(runner.failures, 0, "".join(said))


class Loading(Temporary):
    """Where the library is found, and libraries that cannot be used."""

    def test_named_library_goes_first(self):
        """A name without a path is looked for neither in the current folder nor by the loader."""
        source = self.folder / "source"
        shutil.copytree(PACKAGE / "ima_verify", source / "ima_verify", ignore=HIDDEN)
        library = Path(_library.loaded()._name).resolve()
        for name in ("other.so", "libima_verify.so.1"):
            (self.folder / name).symlink_to(library)
        settings = {"PYTHONPATH": str(source), "LD_LIBRARY_PATH": str(self.folder)}
        self.check_found("", "libima_verify.so.1", **settings)
        packed = source / "ima_verify/libima_verify.so"
        packed.symlink_to(library)
        self.check_found("", packed, **settings)
        for named in (self.folder / "other.so", "./other.so"):
            self.check_found(named, self.folder / "other.so", **settings)
        self.check_found("other.so", "", "LoadError: IMA_VERIFY_LIBRARY is not a path", **settings)

    def test_other_libraries_cannot_be_used(self):
        (self.folder / "text.so").write_text("text")
        for named in ("/nowhere/libima_verify.so", self.folder / "text.so"):
            self.check_found(named, "", f"LoadError: {named} is not there, or not the library")
        with patch.object(_library, "VERSION", ima_verify.version() + 1):
            self.assertRaisesRegex(ima_verify.VersionError, "has version", _library.load)
        with patch.dict(_library.FUNCTIONS, {"later": ["log"]}):
            self.assertRaisesRegex(ima_verify.LoadError, "ima_verify_raw_later", _library.load)


class Hook(Temporary):
    """What is packed, and for which machines; hatchling has no part in that."""

    def test_library_is_packed_for_its_machines(self):
        interface = types.SimpleNamespace(BuildHookInterface=object)
        with patch.dict(sys.modules, {"hatchling.builders.hooks.plugin.interface": interface}):
            hooks = runpy.run_path(str(PACKAGE / "hatch_build.py"))
        file, elf = self.folder / "other.so", b"\x7fELF\2\1\1" + bytes(9) + b"\3\0\x3e\0"
        hook, data = object.__new__(hooks["LibraryHook"]), {"force_include": {}}
        hook.root = self.folder
        for named, text, wanted in (
            ("other.so", elf, "is not a path"), ("", elf, "no library to pack"),
            (file, elf[:-2] + b"\xb7\0", "no shared library for x86-64"), (file, elf, None),
        ):
            file.write_bytes(text)
            with patch.dict(os.environ, {"IMA_VERIFY_LIBRARY": str(named)}):
                hook.initialize("editable", data)  # (which packs none)
                refused = self.assertRaisesRegex(SystemExit, wanted) if wanted else nullcontext()
                with refused:
                    hook.initialize("standard", data)
        self.assertEqual(data["force_include"], {str(file): "ima_verify/libima_verify.so"})
        self.assertEqual(data["tag"], "py3-none-linux_x86_64")
        for versions, wanted in (([b"2.2.5", b"2.5"], "manylinux_2_5"), ([b"2.36", b"X"], "linux"),
                                 ([b"2.17", b"2.9", b"2.2.5"], "manylinux_2_17")):
            strings = b"".join(b"\0GLIBC_" + version + b"\0" for version in versions)
            self.assertEqual(hooks["platform_of"](strings), f"{wanted}_x86_64")
