#!/usr/bin/env python3
"""Saves checkpoints where files of all kinds are, which is more than a case can lay.

tests/cases/saving.py [PROGRAM]: by default the program that was built in this tree.

What `verify --save` leaves, and `attest --save`, goes by docs/cli.md ('Saving'). The checkpoint is that of tests/cases/shared.files, and only
its user can read it. A FILE that is no regular file is refused. Nothing else in the folder is changed."""

import os
import socket
import stat
import subprocess
import sys
from pathlib import Path

sys.path.insert(0, str(Path(__file__).resolve().parents[1]))
import form  # noqa: E402
import harness  # noqa: E402

SECONDS = 60
MOST_BESIDE = 100
FILE, OTHER = "saved", b"another's\n"
REPORT = b"events 1 locality 0\nentries 3\nboot_aggregate good\nsha256 10 match\nverdict match\n"
EXPECTED = b"sha256 10 d54d476b0532a0a009e48de651cd01544e8d093d584ca3dbb93dd0f1b69b7cc4\n"
DONE = (0, REPORT)
NONCE = "00112233445566778899aabbccddeeff"
STATED = b"quoted sha256 0 1 2 3 4 5 6 7 8 9 10\nsigner 000b%s\nclock 5120 resets 1 restarts 2 safe\nfirmware 7\n" % (b"5e" * 32)
BY_QUOTE = STATED + b"events 1 locality 0\nentries 3\nboot_aggregate good\nquote match\n"


def ended(process):
    """The status and the output of a process, or what there is of them after its time."""
    try:
        output, _ = process.communicate(timeout=SECONDS)
    except subprocess.TimeoutExpired:
        process.kill()
        return None, process.communicate()[0]
    return process.returncode, output


def state_of(path):
    """The kind and mode of a file, its bytes, and where it leads as a link."""
    is_link = path.is_symlink()
    return path.lstat().st_mode, path.is_file() and not is_link and path.read_bytes(), is_link and os.readlink(path)


def beside(number):
    return f"{FILE}.{number}.new"


class Saving(harness.TestCase):
    """Each test has a folder with a log, a list, an expected register and a quote, in which the program saves."""

    def setUp(self):
        self.program, self.room, shared = harness.argument(), self.folder(), form.read_shared()
        self.checkpoint, self.quoted_checkpoint = shared["checkpoint"], shared["quoted-checkpoint"]
        self.lay("expected", EXPECTED)
        for name in ("log", "list", "quote", "signing-key", "signature", "signature-of-text"):
            self.lay(name, shared[name])

    def lay(self, name, data=OTHER, mode=0o644):
        (self.room / name).write_bytes(data)
        (self.room / name).chmod(mode)

    def begun(self, listed="list", file=FILE):
        """The program at work, which saves the checkpoint of a list. Its files may have any mode that it asks for."""
        return self.started("verify", "--save", file, "log", listed, "expected")

    def started(self, *words):
        command, *words = words
        return subprocess.Popen([self.program, command, "-q", *words], cwd=self.room, env={}, stdin=subprocess.DEVNULL, stdout=subprocess.PIPE,
                                stderr=subprocess.STDOUT, umask=0)

    def left(self):
        """What is in the folder, by its name."""
        return {path.name: state_of(path) for path in self.room.iterdir()}

    def wants(self, wanted, left, *processes):
        """Requires the answer of each process, and then what is in the folder."""
        answers, found = [ended(process) for process in processes], self.left()
        faults = [f"answers {answer}" for answer in answers if answer != wanted]
        names = sorted(name for name in {*found, *left} if found.get(name) != left.get(name))
        faults += (f"{name}: {str(found.get(name))[:90]}" for name in names)
        if faults:
            self.fail("; ".join(faults))

    def saves(self, mode, listed="list", count=1):
        """Requires that the checkpoint is saved with a mode, and that all else stays."""
        wanted = {**self.left(), FILE: (stat.S_IFREG | mode, self.checkpoint, False)}
        self.wants(DONE, wanted, *[self.begun(listed) for _ in range(count)])

    def refuses(self, file=FILE):
        """Requires that FILE is refused, and that all stays."""
        self.wants((3, f"failed: write {file}\n".encode()), self.left(), self.begun(file=file))

    def replaces(self, before, after):
        """Requires that a FILE with one mode is replaced, and what has its name then has another."""
        self.lay(FILE, mode=before)
        self.saves(after)

    def test_new_file(self):
        """a new FILE"""
        self.saves(0o600)

    def test_private_file(self):
        """a FILE of its user alone"""
        self.replaces(0o600, 0o600)

    def test_readable_file(self):
        """a FILE that all may read"""
        self.replaces(0o644, 0o600)

    def test_open_file(self):
        """a FILE that all may write and run"""
        self.replaces(0o4777, 0o600)

    def test_read_only_file(self):
        """a FILE that none may write"""
        self.replaces(0o444, 0o400)

    def test_attest(self):
        """`attest`, which saves where the signature is said to be checked, and else leaves FILE"""
        self.lay(FILE, mode=0o644)
        words = ["attest", "--nonce", NONCE, "--require", "sha256:0-10", "--save", FILE, "log", "list", "quote"]
        self.wants((4, BY_QUOTE + b"signature not checked\n"), self.left(), self.started(*words))
        left = {**self.left(), FILE: (stat.S_IFREG | 0o600, self.quoted_checkpoint, False)}
        self.wants((0, BY_QUOTE + b"verdict match\n"), left, self.started(*words, "--signature-checked"))

    def test_attest_by_a_key(self):
        """`attest` with a key, which saves where the signature is valid, and else leaves FILE"""
        self.lay(FILE, mode=0o644)
        words = ["attest", "--nonce", NONCE, "--require", "sha256:0-10", "--save", FILE, "--key", "signing-key", "--signature"]
        evidence = ["log", "list", "quote"]
        self.wants((4, b"refused: signature fault 7\n"), self.left(), self.started(*words, "signature-of-text", *evidence))
        left = {**self.left(), FILE: (stat.S_IFREG | 0o600, self.quoted_checkpoint, False)}
        self.wants((0, BY_QUOTE + b"signature valid\nverdict match\n"), left, self.started(*words, "signature", *evidence))

    def test_names_taken(self):
        """names beside it are taken: by a file that anyone may read, by links, which are not followed, by a folder, and by LIST"""
        self.lay(beside(0))
        self.lay("target")
        (self.room / beside(1)).symlink_to("target")
        (self.room / beside(2)).symlink_to("not there")
        (self.room / beside(3)).mkdir()
        (self.room / "list").rename(self.room / beside(4))
        self.saves(0o600, beside(4))

    def test_last_name_free(self):
        """one name beside it is left"""
        for number in range(MOST_BESIDE - 1):
            self.lay(beside(number))
        self.saves(0o600)

    def test_all_names_taken(self):
        """all names beside it are taken"""
        for name in (*map(beside, range(MOST_BESIDE)), FILE):
            self.lay(name)
        self.refuses()

    def test_fifo(self):
        """FILE is a FIFO"""
        os.mkfifo(self.room / FILE)
        self.refuses()

    def test_folder(self):
        """FILE is a folder"""
        (self.room / FILE).mkdir()
        self.refuses()

    def test_link_to_file(self):
        """FILE is a link to a file"""
        self.lay("target")
        (self.room / FILE).symlink_to("target")
        self.refuses()

    def test_link_to_nothing(self):
        """FILE is a link to nothing"""
        (self.room / FILE).symlink_to("not there")
        self.refuses()

    def test_socket(self):
        """FILE is a socket"""
        with socket.socket(socket.AF_UNIX) as server:
            # (its whole path may be too long for a socket)
            place = os.open(self.room, os.O_RDONLY)
            try:
                server.bind(f"/proc/self/fd/{place}/{FILE}")
            finally:
                os.close(place)
            self.refuses()

    def test_no_name(self):
        """FILE has no name: a file beside it can be made, and not be renamed, and is removed"""
        self.refuses("")

    def test_several_at_once(self):
        """several runs at once: each is done, FILE is whole, and nothing is left beside it"""
        self.saves(0o600, count=8)


if __name__ == "__main__":
    sys.exit(harness.main())
