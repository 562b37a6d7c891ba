"""Machines whose files would stop who reads them carelessly, for tests/fleet/test and fleet/bench/load.py: each is a good machine, of whose
files one is no file, never ends, or never comes."""

import ctypes
import os
import shutil
import socket
import subprocess
import sys
from contextlib import contextmanager
from pathlib import Path

ROOT = Path(__file__).resolve().parents[2]
NO_FILE = "it is no regular file"
LINK = "it is a symbolic link"
LATE = "no answer in time"
TEBIBYTE = 1 << 40

# Appends to a file without end, until its input ends or the file has so many bytes.
GROWING = """
import os, sys
with open(sys.argv[1], "ab", buffering=0) as file:
    while file.tell() < 1 << 28 and os.stat(sys.argv[1]).st_nlink:
        file.write(bytes(4096))
"""


def fifo(path):
    os.mkfifo(path)


def listening_socket(path):
    """(Its name is too long where the folder's is.)"""
    with socket.socket(socket.AF_UNIX) as made:
        home = os.open(path.parent, os.O_RDONLY)
        made.bind(f"/proc/self/fd/{home}/{path.name}")
        os.close(home)


def link(target):
    return lambda path: path.symlink_to(target)


def sparse(path):
    path.touch()
    os.truncate(path, TEBIBYTE)


# By kind how one of the files is made, which file, and the verdict and the cause that must come of it.
KINDS = {
    "a FIFO": (fifo, "firmware.log", "unreadable", f"log: {NO_FILE}"),
    "a FIFO for a list": (fifo, "ima.list", "unreadable", f"list: {NO_FILE}"),
    "a socket": (listening_socket, "ima.list", "unreadable", f"list: {NO_FILE}"),
    "a folder": (Path.mkdir, "ima.list", "unreadable", f"list: {NO_FILE}"),
    "another's file": (lambda path: path.symlink_to(ROOT / "samples/real-boot" / path.name), "ima.list", "unreadable", f"list: {LINK}"),
    "a device": (link("/dev/zero"), "ima.list", "unreadable", f"list: {LINK}"),
    "a terminal": (link("/dev/tty"), "expected.txt", "unreadable", f"expected: {LINK}"),
    "a circle": (link("ima.list"), "ima.list", "unreadable", f"list: {LINK}"),
    "nowhere": (link("nothing"), "ima.list", "unreadable", f"list: {LINK}"),
    "a file of files": (link("firmware.log/ima.list"), "ima.list", "unreadable", f"list: {LINK}"),
    "memory": (link("/proc/self/mem"), "ima.list", "unreadable", f"list: {LINK}"),
    "a hole": (sparse, "ima.list", "refused", "refused: too long list"),
    "a hole for a log": (sparse, "firmware.log", "refused", "refused: too long log"),
}


@contextmanager
def growing(path):
    """A file that another process makes longer."""
    process = subprocess.Popen([sys.executable, "-c", GROWING, path], stdin=subprocess.DEVNULL)
    try:
        yield
    finally:
        process.kill()
        process.wait()


@contextmanager
def mounted(folder, user):
    """A file system of this user by FUSE which never answers. Gives whether it is there: that needs to be root, and FUSE."""
    libc, device = ctypes.CDLL(None, use_errno=True), None
    folder.mkdir()
    try:
        device = os.open("/dev/fuse", os.O_RDWR)
        words = f"fd={device},rootmode=40000,user_id={user},group_id={user}".encode()
        is_there = libc.mount(b"never", bytes(folder), b"fuse", 0, words) == 0
    except OSError:
        is_there = False
    try:
        yield is_there
    finally:
        if is_there:
            libc.umount2(bytes(folder), 2)  # (at once, whoever uses it)
        if device is not None:
            os.close(device)


@contextmanager
def hostile_machines(folder, good):
    """Makes a machine of each kind in this folder from one in a good folder. Gives for each its name, its folder, and the verdict and cause that
    must come of it."""
    folder.mkdir()
    made = []
    for name, (make, file, verdict, cause) in KINDS.items():
        home = shutil.copytree(good, folder / name)
        (home / file).unlink()
        make(home / file)
        made.append((name, home, verdict, cause))
    home = shutil.copytree(good, folder / "a list that grows")
    with growing(home / "ima.list"), mounted(folder / "never", 0) as hangs, mounted(folder / "not ours", 12345) as forbids:
        made.append((home.name, home, "refused", "refused: "))
        if hangs:
            made.append(("a mount that hangs", folder / "never", "unreadable", LATE))
        if forbids:
            made.append(("a mount of another", folder / "not ours", "unreadable", "log: permission denied"))
        yield made
