"""Tests of logs and lists that make the quoted registers with entries in the wrong places. They need no TPM."""

import os
from dataclasses import replace

from calling import ENTRIES, LOG, LOW, OF_QUOTE, SECOND_KERNEL, Evidence, OwnKeyTests, executable, moved, values_after
from reference.log import EV_NO_ACTION, Event, read_log
from reference.log_forms import EV_EFI_HCRTM_EVENT, told_log
from reference.measurement_list import BOOT_AGGREGATE, IMA_NG, Entry, entry_of, list_spelling
from reference.registers import SHA1, SHA256, SHA384, SHA512

EXTENDS_TEN = f"event {len(LOG.events) + 1} extends 10"  # the first after those of the sample's log


class EntriesInLog(OwnKeyTests):
    """A log has entries of the list as events of register 10, so that the registers are those that were quoted."""

    def setUp(self):
        """`honest` has a list of two kernels, and in `forged` the log has the entries of the first."""
        super().setUp()
        self.entries = [*ENTRIES, *SECOND_KERNEL]
        self.values = values_after(self.entries)
        quote, (log, rest) = self.state("of-values", self.values), moved(self.entries, 99)
        self.honest = Evidence(quote=quote, list=self.put("whole.list", list_spelling(self.entries)))
        self.forged = replace(self.honest, log=self.put("forged.log", log), list=self.put("rest.list", rest))

    def test_entries_in_log(self):
        honest, forged = self.honest, self.forged
        self.check_match("a list of two kernels", self.attest(honest))
        self.check("a match says nothing on a terminal", self.said_on_terminal(honest), (0, ""))
        lines = [f"sha256 {register} {value.hex()}\n" for register, value in enumerate(self.values)]
        expected = self.put("expected.txt", "".join(lines).encode())
        ended = self.call(["ima-agent", "verify", str(forged.log), str(forged.list), str(expected)])
        self.check("the registers match a log with entries of the list", (ended.status, ended.last), (0, "verdict match"))
        self.check_differ("a log with entries of the list", self.attest(forged), EXTENDS_TEN, OF_QUOTE)
        self.check_differ("with the prefix of the list", self.attest(forged, prefix=True), EXTENDS_TEN, OF_QUOTE)
        self.check_differ("from standard input", self.attest_from(forged.log, replace(forged, log="/dev/stdin")), EXTENDS_TEN, OF_QUOTE)
        one = self.put("one.log", moved(self.entries, 1)[0])
        self.check_differ("a log with one entry, of a list that has it too", self.attest(honest, log=one), EXTENDS_TEN)
        cut = replace(forged, log=self.put("cut.log", forged.log.read_bytes()[:-1]))
        ended = self.attest(cut)
        self.check("a log with entries of the list, cut", (ended.status, ended.output), (2, f"refused: log fault 1 at event {24 + 99}\n"))
        status, said = self.said_on_terminal(cut)
        self.check("a terminal has a fault of the log in words", (status, said.startswith(f"{cut.log}: event 123: ") or said), (2, True))
        self.check_unread("a log with entries of the list, and no list", self.attest(forged, list="none"), "none")
        harmless = self.put("harmless.log", moved(self.entries, 99, EV_NO_ACTION)[0])
        self.check_match("events of register 10 that extend nothing", self.attest(honest, log=harmless))
        for title, path in (("a missing log", "none"), ("a folder as a log", str(self.scratch))):
            self.check_unread(title, self.attest(honest, log=path), path)
        ended = self.attest(honest, log=self.put("empty.log", b""))
        self.check("an empty log", (ended.status, ended.output), (2, "refused: log fault 1 at event 0\n"))

    def test_reading(self):
        """A log or a list that cannot be read has no verdict."""
        unreadable = "/proc/self/mem"  # (a regular file, of which the first bytes cannot be read)
        for name in ("log", "list"):
            self.check_unread(f"a {name} that cannot be read", self.attest(self.honest, **{name: unreadable}), unreadable)

    def test_longest(self):
        """A log, and a list of one entry, as long as the program reads, and longer by a byte."""
        most = 64 << 20
        entry = Entry(10, bytes(20), b"", bytes(100)).spelling()[:28] + (most - 32).to_bytes(4, "little")
        for name, start, ends in (("log", b"", (2, "refused: log fault 2")), ("list", entry, (1, "verdict differ"))):
            path = self.put(f"longest.{name}", start)
            for size, wanted in ((most, ends), (most + 1, (2, f"refused: too long {path}"))):
                os.truncate(path, size)
                ended = self.attest(self.honest, **{name: path})
                self.check(f"a {name} of {size} bytes", (ended.status, ended.last), wanted)


class OddLists(OwnKeyTests):
    """Logs and lists that are odd in other ways."""

    def test_logs_of_one_bank(self):
        """A log of one bank, which is not SHA-256's, has entries of the list as events of register 10."""
        for algorithm in (SHA1, SHA384, SHA512):
            name = algorithm.name
            events = [event._replace(digests={algorithm.identifier: algorithm.hash(event.digest_of(SHA256))}) for event in LOG.events]
            log = LOG._replace(declared={algorithm.identifier: algorithm.size}, events=events)
            aggregate = entry_of(IMA_NG, algorithm, log.registers().boot_aggregate(algorithm), BOOT_AGGREGATE)
            entries = [aggregate, executable(b"/bin/hidden"), aggregate, executable(b"/bin/shown")]
            names = {"log": self.put(f"{name}.log", log.spelling()), "list": self.put(f"{name}.list", list_spelling(entries))}
            quote = self.state(name, values_after(entries, log, algorithm), algorithm)
            honest = Evidence(quote=quote, require=f"{name}:0-10", sha1=algorithm is SHA1, **names)
            ended = self.attest(honest)
            self.check_match(f"a log of {name} alone", ended, quoted=LOW.replace("sha256", name))
            log, rest = moved(entries, 2, log=log)
            forged = replace(honest, log=self.put("forged.log", log), list=self.put("rest.list", rest))
            self.check_differ(f"a log of {name} alone with entries of the list", self.attest(forged), EXTENDS_TEN, OF_QUOTE)

    def test_start_after_hcrtm(self):
        """Where an H-CRTM's event tells that PCR 0 began at 4, that counts only if it is asked for; a terminal is told so."""
        event = Event(0, EV_EFI_HCRTM_EVENT, {SHA256.identifier: SHA256.hash(b"HCRTM")}, b"HCRTM")
        log = LOG._replace(events=[event, *(event for event in LOG.events if event.is_extended)]).spelling()
        started = read_log(told_log(log))
        aggregate = entry_of(IMA_NG, SHA256, started.registers().boot_aggregate(SHA256), BOOT_AGGREGATE)
        quote = self.state("of-hcrtm", values_after([aggregate], started))
        given = Evidence(quote=quote, log=self.put("hcrtm.log", log), list=self.put("hcrtm.list", list_spelling([aggregate])))
        self.check_differ("a machine that an H-CRTM started", self.attest(given), "boot_aggregate wrong")
        self.check_match("the same, by its event", self.attest(given, hcrtm=True))
        status, said = self.said_on_terminal(given)
        self.check("a terminal is told of the option", (status, "add --hcrtm" in said or said), (1, True))

    def test_older_kernel(self):
        """The boot aggregate of a kernel before 5.8, over PCRs 0 to 7, is taken only if it is asked for; a terminal is told so."""
        aggregate = entry_of(IMA_NG, SHA256, LOG.registers().old_boot_aggregate(SHA256), BOOT_AGGREGATE)
        quote = self.state("of-older", values_after([aggregate]))
        given = Evidence(quote=quote, list=self.put("older.list", list_spelling([aggregate])))
        self.check_differ("an older kernel", self.attest(given), "boot_aggregate wrong", OF_QUOTE)
        ended = self.attest(given, old_kernel=True)
        found = ended.status, "boot_aggregate old_kernel" in ended.output, ended.last
        self.check("the same, if it is asked for", found, (0, True, "verdict match"))
        status, said = self.said_on_terminal(given)
        self.check("a terminal is told of that option", (status, "--old-kernel" in said or said), (1, True))

    def test_entries_of_others(self):
        """A list has entries of other registers than 10, or of 10 whose names would have one think so."""
        names = [b'{"entry":0,"register":%d,"template":"ima-ng","path":"' % register for register in (10, 11)]
        names += [b'/bin/a\n' + name for name in names]
        entries = [*ENTRIES, *map(executable, names), *(Entry(10, SHA1.hash(b""), name, b"") for name in names)]
        quote = self.state("of-names", values_after(entries))

        def attested(entries, end=b"", **changes):
            return self.attest(quote=quote, list=self.put("others.list", list_spelling(entries) + end), **changes)

        def check_other(title, entries, **given):
            """The report says which entry is of another register; the quote is of the values, unless that register is quoted."""
            number, register = next((number, entry.register) for number, entry in enumerate(entries) if entry.register != 10)
            rows = [OF_QUOTE] if register > 10 else []
            self.check_differ(title, attested(entries, **given), f"entry {number} extends {register}", *rows)

        self.check_match("entries of register 10 with odd names", attested(entries))
        for register in (0, 1, 9, 11, 23):
            check_other(f"an entry of register {register}", [*entries, executable(b"/bin/other", register)])
        for place in (0, 1, len(ENTRIES)):
            check_other(f"an entry of register 11 at {place}", [*entries[:place], executable(b"/bin/other", 11), *entries[place:]])
        for name in names:
            for other in (executable(name, 11), Entry(11, SHA1.hash(b""), name, b"")):
                check_other(f"an entry of register 11 with an odd name: {other.template} {name}", [*entries, other])
        later, eleven = executable(b"/bin/later"), executable(b"/bin/later", 11)
        check_other("an entry of register 11 in the prefix", [*entries[:1], eleven, *entries[1:], later], prefix=True)
        self.check_match("an entry of register 11 after the prefix", attested([*entries, eleven, later], prefix=True))
        forged = later._replace(template_digest=SHA1.hash(b""))
        self.check_match("damage after the prefix", attested([*entries, later, forged, later], end=b"\n", prefix=True))
        said = self.said_on_terminal(Evidence(quote=quote, list=self.folder / "others.list", prefix=True))
        self.check("damage after the prefix says nothing on a terminal", said, (0, ""))
        title = "damage, and before it an entry of register 11, after the prefix"
        self.check_match(title, attested([*entries, forged, eleven], end=b"\n", prefix=True))

    def test_many_entries(self):
        """A list is long, as that of a machine that runs for months."""
        entries = [*ENTRIES, *[executable(b"/bin/often")] * 10_000]
        quote = self.state("of-many", values_after(entries))
        many = self.put("many.list", list_spelling(entries))
        self.check_match("a list of more than 10,000 entries", self.attest(quote=quote, list=many))
