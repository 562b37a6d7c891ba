#!/usr/bin/env python3
"""Packs a Python project into a wheel by the backend that its pyproject.toml asks for (PEP 517), without pip and without the network.

dist/wheel.py PROJECT FOLDER: works in a copy of PROJECT, and puts the wheel into FOLDER. It takes a Python that has the backend: the one
that runs this, or else the system's. If none has it, that is said on standard error, and there is no wheel; the status is 0 all the
same."""

import importlib
import os
import re
import shutil
import subprocess
import sys
import tempfile
from pathlib import Path

PYTHONS = (sys.executable, "/usr/bin/python3")


def backend_of(project):
    """The backend's module and the object in it."""
    text = (project / "pyproject.toml").read_text()
    return re.search(r'^build-backend = "([\w.]+)(?::([\w.]+))?"$', text, re.MULTILINE).groups()


def build(folder, module, member):
    """Packs the project in the current folder, for all to read, whatever mode the backend gives its file."""
    backend = importlib.import_module(module)
    for part in filter(None, member.split(".")):
        backend = getattr(backend, part)
    Path(folder, backend.build_wheel(folder)).chmod(0o644)


def python_with(module):
    """A Python that has a module, or None. (`python -c` would take one from the current folder, which is any.)"""
    folder = Path(__file__).resolve().parent
    for python in PYTHONS:
        words = [python, "-B", "-c", f"import {module}"]
        if os.access(python, os.X_OK) and subprocess.run(words, cwd=folder, stderr=subprocess.DEVNULL).returncode == 0:
            return python
    return None


def main():
    if sys.argv[1] == "--build":
        build(*sys.argv[2:])
        return 0
    project, folder = (Path(word).resolve() for word in sys.argv[1:])
    module, member = backend_of(project)
    python = python_with(module)
    if python is None:
        print(f"dist/wheel.py: no wheel of {project.name}, for want of a Python with {module.split('.')[0]}", file=sys.stderr)
        return 0
    with tempfile.TemporaryDirectory() as name:
        copy = Path(name, project.name)
        shutil.copytree(project, copy, ignore=shutil.ignore_patterns("*.so", "__pycache__", "tests"))
        words = [python, "-B", Path(__file__).resolve(), "--build", folder, module, member or ""]
        return subprocess.run(words, cwd=copy, stdout=sys.stderr).returncode


if __name__ == "__main__":
    sys.exit(main())
