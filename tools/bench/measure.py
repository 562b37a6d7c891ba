"""Times the program's commands over made inputs of two sizes, checks each answer, and prints how the times grow, and the peak
memory of the commands that should need little.

Arguments: the repository's folder, an empty folder for inputs and outputs, and the number of runs to take the median of.
"""

import hashlib
import random
import shutil
import statistics
import subprocess
import sys
import threading
import time
from pathlib import Path

import inputs
from reference.attestations import VALID, attest_report
from reference.boot_answers import Boot
from reference.known_files import read_known, unknown_entries
from reference.measured_data import matching_registers
from reference.measurement_list import entry_values, list_spelling, list_text
from reference.program import json_lines
from reference.registers import SHA256
from reference.verdict import locate, verdict, verdict_report

MOST_BYTES = 64 * 1024 * 1024
MOST_SECONDS = 300
START_CALLS = 41
START_LIMIT = 0.400
POLL_LIMIT = 0.1  # of the time of `verify` of the whole list
STREAMED_LIMIT = 8  # MiB that a long list may take above an empty one, and a long log above its own size
KNOWN_LIMIT = 1.5  # of the time of `verify` of the list and of `sha256sum` of the file of known digests
BYTES_OF_A_DIGEST = 128  # that each known digest may take, beside the file that lists them

ROOT, FOLDER = (Path(word).resolve() for word in sys.argv[1:3])
RUNS = int(sys.argv[3])
AGENT = ROOT / "ima-agent"
PROGRAM = ROOT / "crates/ima_agent_program/out/ima_agent_program"
NO_INPUT = "empty.list"
OUTPUT = FOLDER / "output"

complaints = []
PEAKS = []


def store(name, data):
    """Writes an input of the program, at most 64 MiB."""
    assert len(data) <= MOST_BYTES, name
    (FOLDER / name).write_bytes(data)
    return name


def timed(words, stdin=NO_INPUT):
    """The time of one call, its status, and what it wrote."""
    with open(FOLDER / stdin, "rb") as source, open(OUTPUT, "wb") as sink:
        start = time.perf_counter()
        # (`wait` with a timeout polls, only every 50 milliseconds)
        with subprocess.Popen(words, stdin=source, stdout=sink, cwd=FOLDER) as called:
            limit = threading.Timer(MOST_SECONDS, called.kill)
            limit.start()
            status = called.wait()
            seconds = time.perf_counter() - start
            limit.cancel()
    return seconds, status, OUTPUT.read_bytes()


def in_order(text):
    return text


def in_any_order(text):
    """The text's lines, sorted except the first, the boot aggregate's: workers record in any order."""
    first, *others = text.splitlines() or [b""]
    return [first, *sorted(others)]


def complain(words, status, text):
    last = (text.splitlines() or [b""])[-1][:80].decode(errors="replace")
    called = " ".join(map(str, words[:4])) or "no words"
    complaints.append(f"{called}: status {status}, {len(text)} bytes, of which the last line is '{last}'")


def median_time(words, wanted, stdin=NO_INPUT, compared=in_order, program=AGENT):
    """The median time of RUNS calls, after one that is not counted; None if an answer is wrong."""
    wanted = compared(wanted)
    times = []
    for _ in range(1 + RUNS):
        seconds, status, text = timed([program, *words], stdin)
        if status != 0 or compared(text) != wanted:
            complain(words, status, text)
            return None
        times.append(seconds)
    return statistics.median(times[1:])


def median_of_tools(*commands, stdin=NO_INPUT):
    """The median time of these system commands, run one after another."""
    times = [sum(timed(command, stdin)[0] for command in commands) for _ in range(1 + RUNS)]
    return statistics.median(times[1:])


def peak_memory(words, wanted, wanted_status=0, compared=in_order):
    """The peak memory of one call of the program, in MiB; None if its answer is wrong."""
    python = [sys.executable, "-S", "-E", ROOT / "tools/bench/peak.py"]
    with open(FOLDER / NO_INPUT, "rb") as source, open(OUTPUT, "wb") as sink:
        told = subprocess.run([*python, PROGRAM, *words], stdin=source, stdout=sink, stderr=subprocess.PIPE, cwd=FOLDER).stderr
    status, kibibytes = map(int, told.split())
    text = OUTPUT.read_bytes()
    if status != wanted_status or compared(text) != compared(wanted):
        complain([PROGRAM.name, *words], status, text)
        return None
    return kibibytes / 1024


def print_memory(what, unit, sizes, empty, peaks):
    """Prints the peak memory of calls with an empty input and with inputs of both sizes."""
    name = f"{what:<28}{sizes[0]:>7,} and {sizes[1]:>7,} {unit:<8}"
    peaks = [empty, *peaks]
    text = "   wrong" if None in peaks else "".join(f"{peak:9.1f} MiB" for peak in peaks)
    print(f"{name}{text}", flush=True)


def print_growth(what, unit, sizes, times):
    """Prints the times at both sizes, and how they grow."""
    name = f"{what:<28}{sizes[0]:>7,} and {sizes[1]:>7,} {unit:<8}"
    if None in times:
        print(f"{name}   wrong", flush=True)
        return
    by_time, by_size = times[1] / times[0], sizes[1] / sizes[0]
    print(f"{name}{times[0]:9.3f} s{times[1]:9.3f} s{by_time:8.2f}{by_size:8.2f}{by_time / by_size:8.2f}", flush=True)


def print_ratio(what, seconds, others):
    if seconds is not None and others is not None:
        print(f"{what:<90}{seconds / others:8.2f}")


def small_log():
    """A log of SHA-256 alone, for a list to follow."""
    return inputs.made_log([SHA256], 24)


def evmctl_time(count):
    """The time of one call of evmctl that shows the made list of so many entries, which it does on standard error; None without evmctl."""
    if not shutil.which("evmctl"):
        print("evmctl is not installed: no ratio to it", flush=True)
        return None
    seconds, status, text = timed(["sh", "-c", "exec evmctl -v ima_measurement made.list 2>&1"])
    shown = sum(line.startswith(b"10 ") for line in text.splitlines())
    if shown != count:
        complaints.append(f"evmctl: status {status}, and {shown} entries")
        return None
    return seconds


def lists():
    """`verify`, `locate` and `show` of made lists: time and peak memory."""
    sizes = (40_000, 440_000)
    verified, located, shown, shown_as_json = [], [], [], []
    memory = {"verify": [], "locate": [], "show": [], "show --json": []}
    log = small_log()
    store("made.log", log.spelling())
    store("none.txt", b"")
    for count in sizes:
        entries = inputs.made_entries(log, inputs.made_measurements(count - 1))
        expected = inputs.expected_after(log, entries)
        report, places = (decide(log, entries, expected)[0].encode() for decide in (verdict, locate))
        text, as_json = list_text(entries), json_lines([*entry_values(entries), {"entries": len(entries)}]).encode()
        names = "made.log", store("made.list", list_spelling(entries)), store("expected.txt", inputs.expected_text(expected))
        verified.append(median_time(["verify", *names], report))
        located.append(median_time(["locate", *names], places))
        shown.append(median_time(["show", "made.list"], text))
        shown_as_json.append(median_time(["show", "--json", "made.list"], as_json))
        memory["locate"].append(peak_memory(["locate", *names], places))
        memory["verify"].append(peak_memory(["verify", *names], report))
        memory["show"].append(peak_memory(["show", "made.list"], text))
        memory["show --json"].append(peak_memory(["show", "--json", "made.list"], as_json))
    print_growth("verify", "entries", sizes, verified)
    print_growth("locate", "entries", sizes, located)
    print_growth("show", "entries", sizes, shown)
    print_growth("show --json", "entries", sizes, shown_as_json)
    hashed = median_of_tools(["sha1sum", "made.list"], ["sha256sum", "made.list"])
    hashed_once = median_of_tools(["sha256sum", "made.list"])
    copied = median_of_tools(["cat", "made.list"])
    nothing = b"events 24 locality 3\nentries 0\nboot_aggregate missing\nverdict differ\n"
    empty = {
        "verify": peak_memory(["verify", "made.log", NO_INPUT, "none.txt"], nothing, 1),
        "locate": peak_memory(["locate", "made.log", NO_INPUT, "none.txt"], b"not located\n", 1),
        "show": peak_memory(["show", NO_INPUT], b""),
        "show --json": peak_memory(["show", "--json", NO_INPUT], b'{"entries":0}\n'),
    }
    for what in ("show", "show --json"):
        peaks = [empty[what], memory[what][1]]
        if None not in peaks and peaks[1] - peaks[0] > STREAMED_LIMIT:
            complaints.append(f"{what} takes {peaks[1] - peaks[0]:.1f} MiB more for {sizes[1]:,} entries than for none")
    PEAKS.extend((what, "entries", sizes, empty[what], peaks) for what, peaks in memory.items())
    return [
        (f"locate of {sizes[1]:,} entries, to verify of the same", located[1], verified[1]),
        (f"verify of {sizes[1]:,} entries, to sha1sum and sha256sum of the list", verified[1], hashed),
        (f"verify of {sizes[1]:,} entries, to sha256sum of the list", verified[1], hashed_once),
        (f"show of {sizes[1]:,} entries, to sha256sum of the list", shown[1], hashed_once),
        (f"show of {sizes[1]:,} entries, to cat of the list", shown[1], copied),
        (f"show --json of {sizes[1]:,} entries, to show of the same", shown_as_json[1], shown[1]),
        (f"show --json of {sizes[1]:,} entries, to evmctl -v ima_measurement of the list", shown_as_json[1], evmctl_time(sizes[1])),
    ]


def polls():
    """`verify --resume` with 100 entries after 100,000, and `verify` of all of them, by the program itself."""
    known, more = 100_000, 100
    log = small_log()
    entries = inputs.made_entries(log, inputs.made_measurements(known + more - 1))
    expected = inputs.expected_after(log, entries)
    report = verdict(log, entries, expected)[0].encode()
    store("made.log", log.spelling())
    store("expected.txt", inputs.expected_text(expected))
    store("known.txt", inputs.expected_text(inputs.expected_after(log, entries[:known])))
    for name, part in (("whole.list", entries), ("known.list", entries[:known]), ("more.list", entries[known:])):
        store(name, list_spelling(part))
    timed([PROGRAM, "verify", "--save", "state", "made.log", "known.list", "known.txt"])
    words = ["verify", "--resume", "state", "made.log", "more.list", "expected.txt"]
    whole = median_time(["verify", "made.log", "whole.list", "expected.txt"], report, program=PROGRAM)
    poll = median_time(words, report, program=PROGRAM)
    if None not in (whole, poll) and poll > POLL_LIMIT * whole:
        complaints.append(f"a poll of {more} entries takes {poll / whole:.2f} of verify of all {known + more:,}")
    if (peak := peak_memory(words, report)) is not None:
        print(f"{f'peak memory of verify --resume, {more} entries after {known:,}, in MiB':<90}{peak:8.1f}")
    return [(f"verify --resume with {more} entries after {known:,}, to verify of all of them", poll, whole)]


def known():
    """`verify --known` of a list with a file of five times as many known digests, to `verify` of the list and `sha256sum` of the file."""
    sizes, times, peaks = (50_000, 500_000), [], []
    log = small_log()
    store("made.log", log.spelling())
    for digests in sizes:
        listed = [*inputs.made_measurements(digests)]
        entries = inputs.made_entries(log, listed[: digests // 5 - 1])
        expected = inputs.expected_after(log, entries)
        text = b"".join(b"%s  %s\n" % (digest.hex().encode(), path) for path, digest in listed)
        required = {(SHA256, register) for register in range(11)}
        report = verdict_report(log, entries, expected, required)
        looked_at = report.looked_at(unknown_entries(read_known(text), entries, 0)).text().encode()
        names = "made.log", store("made.list", list_spelling(entries)), store("expected.txt", inputs.expected_text(expected))
        words = ["verify", "--require", "sha256:0-10", "--known", store("known.txt", text), *names]
        times.append(median_time(words, looked_at))
        peaks.append(peak_memory(words, looked_at))
    alone, hashed = median_time(["verify", "--require", "sha256:0-10", *names], report.text().encode()), median_of_tools(["sha256sum", "known.txt"])
    print_growth("verify --known", "digests", sizes, times)
    both = None if alone is None else alone + hashed
    if None not in (times[1], both) and times[1] > KNOWN_LIMIT * both:
        complaints.append(f"verify --known takes {times[1] / both:.2f} of verify of the same list and sha256sum of the file")
    nothing = b"events 24 locality 3\nentries 0\ncompared 0\nboot_aggregate missing\n" + b"".join(
        b"sha256 %d missing\n" % register for register in range(11)) + b"known_from 0\nverdict differ\n"
    empty = peak_memory(["verify", "--require", "sha256:0-10", "--known", "none.txt", "made.log", NO_INPUT, "none.txt"], nothing, 1)
    most = STREAMED_LIMIT + (len(text) + BYTES_OF_A_DIGEST * sizes[1]) / (1 << 20)
    if None not in (empty, peaks[1]) and peaks[1] - empty > most:
        complaints.append(f"verify --known takes {peaks[1] - empty:.1f} MiB more for {sizes[1]:,} digests than for none, and not {most:.1f} MiB")
    PEAKS.append(("verify --known", "digests", sizes, empty, peaks))
    return [(f"verify --known of {sizes[1]:,} digests, to verify of the same and sha256sum of the file", times[1], both)]


def told_logs():
    """What events say, and what `boot` answers: time, and peak memory of the events as JSON."""
    sizes, shown, plain, booted, peaks = (5_000, 50_000), [], [], [], []
    head = inputs.made_log([SHA256], 1)
    empty = peak_memory(["events", "--json", store("log.bin", head.spelling())], json_lines(head.values()).encode())
    for events in sizes:
        log = inputs.made_log([SHA256], events)
        names = store("expected.txt", inputs.expected_text(inputs.expected_after(log, []))), store("log.bin", log.spelling())
        matching = matching_registers(log.registers(), inputs.expected_after(log, []))
        boot = Boot(log, matching)
        told = "".join(f"{line.text}\n" for line in [*boot.lines(), *boot.differences(log)]).encode()
        words, values = ["events", "--json", "--expected", *names], json_lines(log.values(matching)).encode()
        shown.append(median_time(words, values))
        plain.append(median_time(["events", names[1]], log.text().encode()))
        booted.append(median_time(["boot", "--before", names[1], "--expected", *names], told))
        peaks.append(peak_memory(words, values))
    print_growth("events --json", "events", sizes, shown)
    print_growth("boot --before", "events", sizes, booted)
    most = STREAMED_LIMIT + len(log.spelling()) / (1 << 20)
    if None not in (empty, peaks[1]) and peaks[1] - empty > most:
        complaints.append(f"events --json takes {peaks[1] - empty:.1f} MiB more for {sizes[1]:,} events than for none, and not {most:.1f} MiB")
    PEAKS.append(("events --json", "events", sizes, empty, peaks))
    return [(f"events --json of a log of {sizes[1]:,} events, to events of the same", shown[1], plain[1]),
            (f"boot --before of a log of {sizes[1]:,} events, to events of the same", booted[1], plain[1])]


def logs():
    """The events of made logs, and their registers in hexadecimal on standard input."""
    sizes = (32_000, 320_000)
    times, shown = [], []
    for events in sizes:
        log = inputs.made_log([SHA256], events)
        shown.append(median_time(["events", store("log.bin", log.spelling())], log.text().encode()))
        store("log.hex", inputs.hexadecimal(log.spelling()))
        times.append(median_time([], log.registers().text().encode(), stdin="log.hex"))
    print_growth("events of a log", "events", sizes, shown)
    print_growth("registers of a log", "events", sizes, times)
    hashed = median_of_tools(["sha256sum", "log.hex"])
    hashed_log = median_of_tools(["sha256sum", "log.bin"])
    return [
        (f"events of a log of {sizes[1]:,} events, to sha256sum of the log", shown[1], hashed_log),
        (f"registers of a log of {sizes[1]:,} events, to sha256sum of its hexadecimal", times[1], hashed),
    ]


def measure_call(workers, contents):
    """The arguments of `measure` of the files of `contents`, a hash for each name, by this number of workers; and the answer."""
    log = small_log()
    store("made.log", log.spelling())
    text = list_text(inputs.made_entries(log, [(name.encode(), digest) for name, digest in contents.items()]))
    return ["measure", "--workers", str(workers), "made.log", *contents], text


def measure_time(workers, contents):
    """The time of `measure` of the files of `contents` by this number of workers."""
    return median_time(*measure_call(workers, contents), compared=in_order if workers == 1 else in_any_order)


def measure_memory(workers, contents):
    """The peak memory of `measure` of the files of `contents` by this number of workers."""
    return peak_memory(*measure_call(workers, contents), compared=in_any_order)


def first_of(contents, count):
    return dict(list(contents.items())[:count])


def measured(what, workers, sizes, contents):
    """Prints the times of `measure` of the first files of `contents` by this number of workers; returns the last."""
    times = [measure_time(workers, first_of(contents, count)) for count in sizes]
    print_growth(what, "files", sizes, times)
    return times[1]


def made_files(count, size):
    """Makes `count` files of `size` random bytes each, and returns the hash for each name."""
    source = random.Random(size)
    contents = {}
    for k in range(count):
        data = source.randbytes(size)
        contents[store(f"file-{size}-{k:05}", data)] = hashlib.sha256(data).digest()
    return contents


def files():
    """`measure` of files of 1 MiB by one worker and by four, of small ones, and of enough to time the search for known ones."""
    sizes = (64, 256)
    contents = made_files(sizes[1], 1024 * 1024)
    by_one = measured("measure 1 MiB, 1 worker", 1, sizes, contents)
    by_four = measured("measure 1 MiB, 4 workers", 4, sizes, contents)
    empty, *peaks = (measure_memory(4, first_of(contents, count)) for count in (0, *sizes))
    PEAKS.append(("measure 1 MiB, 4 workers", "files", sizes, empty, peaks))
    hashed = median_of_tools(["sha256sum", *contents])
    # (without -n, xargs would make one call for all names)
    names = store("names", "".join(f"{name}\n" for name in contents).encode())
    hashed_by_four = median_of_tools(["xargs", "-P", "4", "-n", "16", "sha256sum"], stdin=names)
    measured("measure 1 KiB, 1 worker", 1, (400, 4_000), made_files(4_000, 1024))
    measured("measure 16 bytes, 1 worker", 1, (10_000, 40_000), made_files(40_000, 16))
    return [
        ("measure of 256 files of 1 MiB by 1 worker, to the same by 4 workers", by_one, by_four),
        ("measure of 256 files of 1 MiB by 4 workers, to xargs -P4 sha256sum of the files", by_four, hashed_by_four),
        ("measure of 256 files of 1 MiB by 1 worker, to sha256sum of the files", by_one, hashed),
    ]


def uneven_files():
    """`measure` of one large file and then many small ones, by one worker and by four."""
    contents = made_files(1, 32 * 1024 * 1024) | made_files(400, 64 * 1024)
    what = "measure of a file of 32 MiB and then 400 of 64 KiB by 1 worker, to the same by 4 workers"
    return [(what, measure_time(1, contents), measure_time(4, contents))]


def attested(program, kind, option):
    """The time of a call on the sample boot by the quote that a key of this kind signed, with the arguments that `option` makes of the quote's name."""
    signed, (log, measurements) = ROOT / "samples/signed", (ROOT / "samples/real-boot" / name for name in ("firmware.log", "ima.list"))
    message, nonce = signed / f"{kind}.msg", (ROOT / "samples/quoted/nonce").read_text().strip()
    report = attest_report(log.read_bytes(), measurements.read_bytes(), message.read_bytes(), bytes.fromhex(nonce), "sha256:0-10", signature=VALID)
    words = ["--key", signed / f"{kind}.pub", "--signature", signed / f"{kind}.tpmt", "--nonce", nonce, "--require", "sha256:0-10"]
    return median_time(option(words, [log, measurements], message), report.text().encode(), program=program)


def signatures():
    """`attest` with a key and a signature, by keys of each kind; `ima-attest`; and tpm2_checkquote, which verifies a signature alone."""
    times = {f"attest, 99 entries, by {kind}": attested(PROGRAM, kind, lambda words, names, message: ["attest", *words, *names, message])
             for kind in ("rsassa", "rsapss", "rsa3072", "p256", "p384")}
    script, quoted = FOLDER / "ima-attest", ROOT / "samples/quoted"
    shutil.copy(ROOT / "attest/verify", script)
    (FOLDER / "ima-agent").symlink_to(PROGRAM)
    times["ima-attest, the same by rsassa"] = attested(script, "rsassa", lambda words, names, message: ["--quote", message, *words, *names])
    if shutil.which("tpm2_checkquote"):
        words = [f"-u{quoted / 'AK.pem'}", f"-m{quoted / 'quote.msg'}", f"-s{quoted / 'quote.tpmt'}", f"-q{(quoted / 'nonce').read_text().strip()}"]
        times["tpm2_checkquote of a quote by rsassa, without log and list"] = median_of_tools(["tpm2_checkquote", *words])
    for what, seconds in times.items():
        if seconds is not None:
            print(f"{f'{what}, in milliseconds':<90}{seconds * 1000:8.2f}")


def starts():
    """The time that a start of the script adds to one of the program itself, when all is built."""
    words = ["show", NO_INPUT]
    times = {AGENT: [], PROGRAM: []}
    for _ in range(START_CALLS):
        for called, taken in times.items():
            seconds, status, text = timed([called, *words])
            taken.append(seconds)
            if status != 0 or text:
                complain([called.name, *words], status, text)
                return
    above = statistics.median(times[AGENT]) - statistics.median(times[PROGRAM])
    print(f"{'a start of ./ima-agent, above one of the program itself, in milliseconds':<90}{above * 1000:8.2f}")
    if above > START_LIMIT:
        complaints.append(f"a start of ./ima-agent takes more than {START_LIMIT * 1000:.0f} ms above the program's")


def main():
    print(f"runs      {RUNS} for each time, which is their median\n")
    print(f"{'':<48}{'small':>11}{'large':>11}{'times':>8}{'sizes':>8}{'growth':>8}", flush=True)
    ratios = [*lists(), *polls(), *known(), *logs(), *told_logs(), *files(), *uneven_files()]
    print(f"\n{'peak memory of':<52}{'empty':>13}{'small':>13}{'large':>13}")
    for peak in PEAKS:
        print_memory(*peak)
    print(f"\n{'':<90}{'ratio':>8}")
    for ratio in ratios:
        print_ratio(*ratio)
    signatures()
    starts()
    for complaint in complaints:
        print(f"tools/bench/run: wrong: {complaint}", file=sys.stderr)
    sys.exit(1 if complaints else 0)


main()
