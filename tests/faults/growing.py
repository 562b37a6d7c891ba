#!/usr/bin/env python3
"""Compares what the program answers on a list that comes in parts with what it answers on the whole list, and with what `tests/reference/` does.

tests/faults/growing.py [PROGRAM]: by default the program that was built in this tree.

A list is cut at each entry, and a small one, of all kinds of entries, at each byte. The checkpoint of the first part is saved with the
registers that it leaves, or is the reference's where it does not match. The rest continues from it, and the verdict must be that of the whole
list. So it must be in three parts, with an entry whose digest does not match, and where the first part ends within an entry, so that the
prefix before it is saved. Prefixes that registers confirm are looked for in lists with such an entry before or after their end. A checkpoint
with the lowest bit of one byte turned, and a prefix of one, must be refused. The former is also tried with a last line that is right again. A
checkpoint that no list leaves must be refused, too. A list in two parts is also judged by quotes of a TPM, the second with the same counts of
resets and restarts or with others; and so are boots that are changed at random (boots.py), with expected registers. Each answer is compared with
the reference's, and so is each file that is saved. For each kind of trial the script prints how many had which answer. It counts trials."""

import os
import random
import subprocess
import sys
import tempfile
from collections import Counter
from concurrent.futures import ProcessPoolExecutor
from pathlib import Path

sys.path.insert(0, str(Path(__file__).resolve().parents[1]))
import boots  # noqa: E402
import harness  # noqa: E402
import reference  # noqa: E402
from harness import ROOT  # noqa: E402
from reference.checkpoint import before_a_list  # noqa: E402
from reference.fields import with_length  # noqa: E402
from reference.log import Event, Log, read_log  # noqa: E402
from reference.measurement_list import BOOT_AGGREGATE, IMA, IMA_NG, IMA_SIG, VIOLATION, Entry, entry_of, list_spelling, read_list  # noqa: E402
from reference.registers import SHA1, SHA256, Registers, register_line  # noqa: E402

SECONDS = 60
CHUNKS = 8
ODD_BYTES = 41
FIRST_BYTES, STEP = 200, 5
# As many bytes as the list of a checkpoint may have.
MOST_BYTES = 2**63 - 2**26 - 1
SAVED = "saved"
OPTIONS = ([], ["--json"], ["--require", "sha256:10"], ["--require", "sha1:10"])
QUOTED = ["--nonce", boots.NONCE.hex(), "--require", boots.REQUIRE, "--signature-checked"]
# The TPM's counts that the first quote states, and those that a later one may state.
FIRST_COUNTS, LATER_COUNTS = (7, 1), ((7, 1), (8, 1), (7, 2), (1, 7), (0, 0))
RANDOM_BOOTS = 1000


class Wrong(Exception):
    """An answer that is not as it has to be."""


class Boot:
    """A log, a list, and the registers after each number of its entries, as expected registers."""

    def __init__(self, log, entries):
        self.log, self.entries = log, entries
        self.list = list_spelling(entries)
        self.ends = [0]
        registers = read_log(log).registers()
        self.expected = [self.rows(registers)]
        for entry in entries:
            self.ends.append(self.ends[-1] + len(entry.spelling()))
            registers.extend(entry.register, entry.digest_of)
            self.expected.append(self.rows(registers))

    def rows(self, registers):
        return "".join(register_line(SHA256, number, registers.value(SHA256, number)) for number in (10, 11)).encode()

    def entries_in(self, size):
        """How many entries the first bytes have whole."""
        return sum(end <= size for end in self.ends) - 1

    def forged(self, place):
        """The list with one bit of the template digest of an entry turned, so that it is not genuine."""
        at = self.ends[place] + 4
        return self.list[:at] + bytes([self.list[at] ^ 1]) + self.list[at + 1 :]


def broken(boot):
    """The list with each of its faults at the end, and with its last entry cut short."""
    yield boot.list + b"\x0a"
    yield boot.list[:-1]
    yield boot.list + (24).to_bytes(4, "little")
    yield boot.list + (10).to_bytes(4, "little") + bytes(20) + with_length(IMA) + bytes(20) + (256).to_bytes(4, "little")


def real_boot():
    folder = ROOT / "samples/real-boot"
    return Boot((folder / "firmware.log").read_bytes(), read_list((folder / "ima.list").read_bytes()))


def small_boot(algorithms=(SHA256,)):
    """A log of one event, and a list with an entry of each kind, of which the last states another boot aggregate than the first."""
    digests = {algorithm.identifier: bytes(algorithm.size) for algorithm in algorithms}
    log = Log({algorithm.identifier: algorithm.size for algorithm in algorithms}, [Event(4, 4, digests, b"abcd")])
    aggregate = log.registers().boot_aggregate(SHA256)
    files = [(IMA, SHA1, b"/bin/a"), (IMA_SIG, SHA256, b"/bin/b"), (IMA_NG, SHA1, b""), (b"ima-buf", SHA256, b"/bin/c")]
    entries = [entry_of(IMA_NG, SHA256, aggregate, BOOT_AGGREGATE)]
    entries += [entry_of(template, algorithm, algorithm.hash(path), path) for template, algorithm, path in files]
    entries += [Entry(10, VIOLATION, b"", b""), entries[1]._replace(register=11), entries[2]]
    return Boot(log.spelling(), [*entries, entry_of(IMA_NG, SHA256, bytes(SHA256.size), BOOT_AGGREGATE)])


class Room:
    """A folder with files, in which the program and the reference answer."""

    def __init__(self, program, folder):
        self.program, self.folder = program, Path(folder)

    def put(self, **files):
        for name, data in files.items():
            (self.folder / name).write_bytes(data)

    def saved(self):
        file = self.folder / SAVED
        return file.read_bytes() if file.exists() else None

    def restore(self, data):
        (self.folder / SAVED).unlink(missing_ok=True)
        if data is not None:
            self.put(**{SAVED: data})

    def answer(self, *words, command=("verify",)):
        """The program's status and output for a command with these words, which must be the reference's, and so must the file that is saved."""
        words, before = [*command, *words], self.saved()
        done = subprocess.run([self.program, words[0], "-q", *words[1:]], cwd=self.folder, stdin=subprocess.DEVNULL, capture_output=True, timeout=SECONDS)
        answer, saved = (done.returncode, done.stdout), self.saved()
        self.restore(before)
        wanted = reference.answer(words, self.folder)
        if answer != wanted or done.stderr:
            raise Wrong(f"{words}: status {answer[0]}, {answer[1][-200:]!r} {done.stderr[-200:]!r}, not {wanted[0]}, {wanted[1][-200:]!r}")
        if saved != self.saved():
            raise Wrong(f"{words}: saved {saved and saved[-200:]!r}, not {(self.saved() or b'nothing')[-200:]!r}")
        return answer


def same(found, wanted):
    """The answer, which has to be this one."""
    if found != wanted:
        raise Wrong(f"status {found[0]}, {found[1][-200:]!r}, not that of the whole list, {wanted[0]}, {wanted[1][-200:]!r}")
    return found


def checkpoint_of(boot, entries):
    """The checkpoint of the prefix of a list that has so many entries, by the reference."""
    return before_a_list(read_log(boot.log).registers()).following(boot.entries[:entries])


def begun(room, boot, size, *words):
    """Whether there is a checkpoint to go on from: the program saves one with a match, and nothing else; of a list without a match, which has
    so many bytes, it is the reference's."""
    before = room.saved()
    status, _ = room.answer("--save", SAVED, *words)
    if (room.saved() != before) if status else (room.saved() is None):
        raise Wrong(f"status {status}, and {'nothing' if room.saved() == before else 'a file'} is saved")
    if status == 1:
        room.put(**{SAVED: checkpoint_of(boot, boot.ends.index(size)).text()})
    return status <= 1


def cut(room, boot, data, place, options):
    """The list in two parts. The first may be refused, since an entry is forged or cut short."""
    room.put(log=boot.log, whole=data, first=data[:place], rest=data[place:])
    room.put(expected=boot.expected[-1], then=boot.expected[boot.entries_in(place)])
    whole = room.answer(*options, "log", "whole", "expected")
    room.restore(None)
    if not begun(room, boot, place, "log", "first", "then"):
        return 2, b"the first part is refused"
    return same(room.answer(*options, "--resume", SAVED, "log", "rest", "expected"), whole)


def cut_twice(room, boot, places):
    """The list in three parts, with one file for both checkpoints."""
    first, second = sorted(places)
    room.put(log=boot.log, whole=boot.list, first=boot.list[:first], middle=boot.list[first:second], rest=boot.list[second:])
    room.put(expected=boot.expected[-1], then=boot.expected[boot.entries_in(first)], later=boot.expected[boot.entries_in(second)])
    room.restore(None)
    begun(room, boot, first, "log", "first", "then")
    begun(room, boot, second, "--resume", SAVED, "log", "middle", "later")
    return same(room.answer("--resume", SAVED, "log", "rest", "expected"), room.answer("log", "whole", "expected"))


def cut_within(room, boot, place):
    """The list cut anywhere, by a machine whose registers have the entries that came whole: the prefix that these confirm is saved, and the
    list gone on with from there."""
    return prefix_saved(room, boot, boot.list[:place], boot.entries_in(place))


def prefix_saved(room, boot, data, entries):
    """A list of which registers confirm the prefix of so many entries: its checkpoint is saved, and gone on from with the boot's list."""
    room.put(log=boot.log, whole=boot.list, first=data, then=boot.expected[entries], expected=boot.expected[-1])
    whole = room.answer("log", "whole", "expected")
    room.restore(None)
    if not begun(room, boot, len(data), "--prefix", "log", "first", "then"):
        return 2, b"no prefix is confirmed"
    size = int(room.saved().split(b"\nbytes ")[1].partition(b"\n")[0])
    room.put(rest=boot.list[size:])
    return same(room.answer("--resume", SAVED, "log", "rest", "expected"), whole)


def prefix(room, boot, entries, forged, start):
    """The prefix of so many entries, which registers confirm, of a list of which one is forged, from a checkpoint or from the beginning."""
    data = boot.list if forged is None else boot.forged(forged)
    size = boot.ends[start]
    room.put(log=boot.log, first=boot.list[:size], rest=data[size:], before=boot.expected[start], then=boot.expected[entries])
    room.restore(None)
    begun(room, boot, size, "log", "first", "before")
    return room.answer("--prefix", "--resume", SAVED, "--require", "sha256:10", "log", "rest", "then")


def quoted_in_parts(room, boot, place, counts, options):
    """The list in two parts, by quotes, of which the second states these counts."""
    first, attest = boot.list[:place], ("attest", *QUOTED, *options)
    room.put(log=boot.log, whole=boot.list, first=first, rest=boot.list[place:])
    room.put(quote=boots.quoted(boot.log, first, FIRST_COUNTS), later=boots.quoted(boot.log, boot.list, counts))
    whole = room.answer("log", "whole", "later", command=attest)
    room.restore(None)
    room.answer("--save", SAVED, "log", "first", "quote", command=attest)
    if room.saved() is None:
        room.put(**{SAVED: checkpoint_of(boot, boot.ends.index(place))._replace(boot=FIRST_COUNTS).text()})
    answer = room.answer("--resume", SAVED, "--save", SAVED, "log", "rest", "later", command=attest)
    if counts == FIRST_COUNTS:
        return same(answer, whole)
    if answer[0] != 2 or b"refused: checkpoint fault 4" not in answer[1]:
        raise Wrong(f"status {answer[0]}, {answer[1]!r}, by a quote of another boot")
    return answer[0], b"refused: checkpoint fault 4"


def with_expected(room, seed):
    """A boot that is changed at random, by a quote, with expected registers."""
    drawn = random.Random(seed)
    log, listed, message = boots.random_boot(drawn)
    room.put(log=log, list=listed, quote=message, expected=boots.random_expected(drawn, log, listed))
    room.restore(None)
    options = [option for option in ("--prefix", f"--save={SAVED}") if drawn.random() < 0.5]
    return room.answer(*options, "log", "list", "quote", "expected", command=("attest", *QUOTED))


def in_place(room, boot, text, is_refused=None):
    """A text in place of a checkpoint of the list, whose last entry comes once more; and whether it must be refused, if that is known."""
    longer = Boot(boot.log, [*boot.entries, boot.entries[-1]])
    room.put(log=boot.log, rest=boot.entries[-1].spelling(), expected=longer.expected[-1], text=text)
    answer = room.answer("--resume", "text", "log", "rest", "expected")
    if is_refused is not None and answer[1].startswith(b"refused: checkpoint fault ") != is_refused:
        raise Wrong(f"status {answer[0]}, {answer[1]!r}, of {text[:100]!r}")
    return answer


def impossible(known):
    """Checkpoints that no list leaves, made of this one, which has entries and two banks."""
    nothing, fewer = before_a_list(known.before), Registers(())
    fewer.banks[SHA256] = known.before.banks[SHA256]
    yield known._replace(entries=0)
    yield known._replace(entries=0, bytes=0)
    yield known._replace(entries=0, bytes=0, stated=None)
    yield nothing._replace(bytes=1)
    yield nothing._replace(stated=known.stated)
    yield nothing._replace(told=known.stated)
    yield nothing._replace(after=known.after)
    yield known._replace(bytes=32 * known.entries - 1)
    yield known._replace(entries=known.bytes // 32 + 1)
    yield known._replace(entries=2**59, bytes=MOST_BYTES)
    yield known._replace(entries=2**64 - 1)
    yield known._replace(bytes=MOST_BYTES + 1)
    yield known._replace(bytes=2**63 - 1)
    yield known._replace(boot=(2**32, 0))
    yield known._replace(boot=(0, 2**32))
    yield known._replace(before=fewer)
    yield known._replace(after=fewer)


def possible(known):
    """Checkpoints at the ends of what a list may leave: of no entries, of the shortest ones, and of as many bytes as there may be."""
    yield before_a_list(known.before)
    yield known._replace(bytes=32 * known.entries)
    yield known._replace(entries=known.bytes // 32)
    yield known._replace(bytes=MOST_BYTES)
    yield known._replace(entries=MOST_BYTES // 32, bytes=MOST_BYTES)
    yield known._replace(boot=(2**32 - 1, 2**32 - 1))


def turned(text, place):
    return text[:place] + bytes([text[place] ^ 1]) + text[place + 1 :]


def sealed(text):
    """A text with a last line that has the hash of what stands before it."""
    body = text[: text.rindex(b"sha256 ")]
    return body + f"sha256 {SHA256.hash(body).hex()}\n".encode()


def some_of(size):
    """Places in a text of a checkpoint: all in the lines of its counts, and some later."""
    return [*range(FIRST_BYTES), *range(FIRST_BYTES, size, STEP)]


def trials():
    """All trials, by their kind: each a call, and what it takes beside the room."""
    drawn, small, real = random.Random(1), small_boot(), real_boot()
    banks, text = small_boot((SHA1, SHA256)), checkpoint_of(small, len(small.entries)).text()
    known = checkpoint_of(banks, len(banks.entries))
    late = Boot(small.log, [*small.entries[1:3], *small.entries])
    everywhere, places = range(len(small.list) + 1), range(len(small.entries) + 1)
    yield "small list, in two parts at each byte", [(cut, small, small.list, place, OPTIONS[place % 4]) for place in everywhere]
    yield "small list, within an entry", [(cut_within, small, place) for place in everywhere]
    yield "small list, in three parts", [(cut_twice, small, (first, second)) for first in small.ends for second in small.ends]
    yield "two banks, in two parts", [(cut, banks, banks.list, end, options) for end in banks.ends for options in OPTIONS]
    yield "one entry forged, in two parts", [
        (cut, small, small.forged(forged), end, []) for forged in places[:-1] for end in small.ends]
    yield "one entry forged, and a prefix", [
        (prefix, small, entries, forged, start) for forged in (None, *places[:-1]) for entries in places for start in places]
    yield "list that ends in a fault, in two parts", [
        (cut, small, data, end, options) for data in broken(small) for end in small.ends[:-1] for options in ([], ["--prefix"])]
    yield "prefix of a list that goes on or is damaged", [
        (prefix_saved, small, data, entries) for entries in places for data in (small.list, *broken(small), *map(small.forged, places[entries:-1]))]
    yield "list without its boot aggregate, or with it late", [(cut, late, late.list, end, []) for end in late.ends]
    yield "real list, in two parts at each entry", [(cut, real, real.list, end, OPTIONS[end % 4]) for end in real.ends]
    yield "real list, within an entry", [(cut_within, real, place) for place in range(0, len(real.list), ODD_BYTES)]
    yield "real list, in three parts", [(cut_twice, real, drawn.sample(real.ends, 2)) for _ in range(50)]
    yield "real list, one entry forged, in two parts", [
        (cut, real, real.forged(drawn.randrange(len(real.entries))), drawn.choice(real.ends), []) for _ in range(50)]
    yield "real list, one entry forged, and a prefix", [
        (prefix, real, drawn.randrange(100), drawn.randrange(99), drawn.randrange(30)) for _ in range(50)]
    whole = Boot(b"".join(boots.WHOLE.events), read_list(b"".join(boots.WHOLE.entries)))
    yield "list in two parts, by quotes", [
        (quoted_in_parts, whole, end, counts, options) for end in whole.ends for counts in LATER_COUNTS for options in ([], ["--prefix"], ["--json"])]
    yield "boots that are changed at random, by a quote, with expected registers", [(with_expected, seed) for seed in range(RANDOM_BOOTS)]
    yield "checkpoint, one bit turned", [(in_place, small, turned(text, place), True) for place in range(len(text))]
    yield "checkpoint, prefixes", [(in_place, small, text[:size], True) for size in some_of(len(text))]
    yield "checkpoint, one bit turned, under a right hash", [
        (in_place, small, sealed(turned(text, place))) for place in some_of(text.rindex(b"sha256 "))]
    yield "checkpoint of another boot", [(in_place, boot, text, True) for boot in (banks, real)]
    yield "checkpoint that no list leaves", [(in_place, banks, one.text(), True) for one in impossible(known)]
    yield "checkpoint that a list may leave", [(in_place, banks, one.text(), False) for one in possible(known)]


def kind_of_answer(answer):
    """An answer without its numbers of entries."""
    status, text = answer
    compared = ", EXPECTED is confirmed" if b"\nexpected confirmed\n" in text else ""
    return f"match{compared}" if status == 0 else f"differ{compared}" if status == 1 else text.decode().strip().partition(" at ")[0]


def outcomes(program, chunk):
    """How many trials of a chunk had which answer, and what is wrong with the others."""
    counts, wrong = Counter(), []
    with tempfile.TemporaryDirectory() as folder:
        room = Room(program, folder)
        for trial, *given in chunk:
            try:
                counts[kind_of_answer(trial(room, *given))] += 1
            except (Wrong, OSError, subprocess.TimeoutExpired) as fault:
                wrong.append(str(fault))
    return counts, wrong


class Growing(harness.TestCase):
    def test_trials(self):
        program = harness.argument()
        with ProcessPoolExecutor(os.cpu_count()) as pool:
            runs = [
                (kind, [pool.submit(outcomes, program, chunk) for chunk in (group[start::CHUNKS] for start in range(CHUNKS)) if chunk])
                for kind, group in trials()
            ]
            for kind, chunks in runs:
                counts, wrong = Counter(), []
                for run in chunks:
                    counts.update(run.result()[0])
                    wrong += run.result()[1]
                answers = ", ".join(f"{answer} {times}" for answer, times in sorted(counts.items()))
                self.check_all(f"{kind}: {answers}", sum(counts.values()), wrong)


if __name__ == "__main__":
    sys.exit(harness.main())
