"""What a call of `ima-report FOLDER` does: a page of one boot, to look at. The verdict and the status are those of the program `ima-agent`."""

import argparse
import signal
import sys
import tempfile
from pathlib import Path
from typing import Any, NamedTuple, Optional, Sequence, Tuple

from . import __version__
from .boot import EARLIER_EVENTS, Boot, Criteria, boot_of, covered
from .certificates import certificates_in, with_names
from .comparison import compare
from .ending import SIGNALS
from .field_names import in_words, pcr, pcrs
from .guidance import Call, is_coded, next_steps, reasons
from .options import HCRTM, OLD_KERNEL, Once, positive
from .program import STOPPED, Line, NoProgram, Reply, program_of
from .reading import cause_of, now
from .rendering import render, write_page
from .verdict import NONE

ABOUT = """Writes an HTML page to standard output: the verdict on one boot with its reason and what to do next, unknown files, the PCRs, what
the machine booted, each event of its log with what it says and whether that is confirmed, and each entry of its list.

FOLDER has firmware.log, ima.list, and expected.txt. With --key and --nonce the boot is judged by a quote: FOLDER has quote.msg and
quote.sig, and expected.txt may be there. Without them nobody signed the expected PCRs, and a match says so. No link, pipe or device
there is read. If a file is incomplete, the page shows what comes before the error.

EARLIER is the folder of an earlier boot, as collected, or its log. The page then has both boots side by side, PCR by PCR. Nothing
confirms the earlier log.

The verdict is that of the program ima-agent. The page is self-contained: it loads nothing.

Exit status: that of the program: 0 if the verdict is match; 1 if it is differ; 2 if an input is refused; 3 if a file in FOLDER cannot be read,
the program failed or is not there, or the page could not be written; 4 if the quote or its signature is refused. With 2, 3 and 4 there is a page
too, which says so, unless it could not be written or the program is not on PATH. 64 if the arguments are wrong."""

_WRONG = 64
_UNKNOWN = "unknown"


class Booted(NamedTuple):
    """What the program says of what was booted: what the PCRs confirm, and what is only claimed. Without both it is unknown."""

    what: str
    confirmed: Any
    claimed: Any
    event: Optional[int] = None

    @property
    def kind(self) -> str:
        if self.confirmed is not None:
            return "confirmed"
        return _UNKNOWN if self.claimed is None else "claimed"


def booted(line: Line) -> Booted:
    """A line of `ima-agent boot`, of which the first member says what it is about."""
    what, value = next(iter(line.items()))
    if what == "claimed":
        return _claim(value)
    event = value if isinstance(value, int) else line.get("event")
    title = what.replace("_", " ")
    if what == "image":
        return Booted(title, line.get("digests"), _image(line.get("claimed")), event)
    if what == "command":
        text = line.get("text", line.get("text_hex"))
        return Booted(f"{title}, PCR {pcr(line['register'])}", text if value != _UNKNOWN else None, line.get("claimed"), event)
    if what == "boot_variable" and value != _UNKNOWN:
        return Booted(title, *_variable(line["content"]), event)
    if what == "ima_policy":
        return Booted(title, None, None if value == _UNKNOWN else value, event)
    return Booted(title, None if value == _UNKNOWN else value, None, event)


def _claim(claim: Any) -> Booted:
    """What an event claims where nothing confirms anything; of the first line, that it is so."""
    if not isinstance(claim, dict):
        return Booted("all of this", None, "confirmed by nothing")
    what, value = list(claim.items())[-1]
    title = what.replace("_", " ")
    if what == "image":
        value = {**claim.get("digests", {}), **_image(value)}
    if what == "command":
        title = f"{title}, PCR {pcr(claim['register'])}"
    return Booted(title, None, value, claim.get("event"))


def _image(claimed: Any) -> Any:
    """Of an image's path what names it, if that is there."""
    image = (claimed or {}).get("image", {})
    return {name: image[name] for name in ("path", "path_hex") if name in image} or claimed


def _variable(content: Line) -> Tuple[Any, Any]:
    """What the value of a variable says, which is measured, and whose value that is, which is not."""
    variable = content.get("variable", {})
    claimed = {name: each for name, each in variable.items() if name in ("name", "name_hex", "guid")}
    said = {name: each for name, each in variable.items() if name not in claimed and name != "value"}
    return said or {"value": variable.get("value")}, claimed


def is_compared(line: Line) -> bool:
    """Whether a line of `ima-agent boot --before` is on a PCR of both logs."""
    return "register" in line and "command" not in line


def page_of(boot: Boot, criteria: Criteria, call: Call, title: str) -> bytes:
    """The page of a boot."""
    lines, nothing = boot.replies["boot"].lines, Reply(0, [], 0, "")
    events = [{**line, "content": _content(line["content"])} for line in boot.replies["events"].lines if "event" in line]
    comparison = compare([line for line in lines if is_compared(line)], boot.replies["events"], boot.replies.get(EARLIER_EVENTS, nothing))
    return render(
        "report.html", boot=boot, criteria=criteria, title=title, made=now(), version=__version__,
        reasons=reasons(boot, criteria), steps=next_steps(boot, criteria, call), is_coded=is_coded,
        booted=[booted(line) for line in lines if not is_compared(line)], comparison=comparison, events=events,
        certificates=[*certificates_in(events)],
        unknown=frozenset(boot.unknown), covered=covered, pcr=pcr, pcrs=pcrs, content=_content,
    )


def _content(value: Any) -> Any:
    """What the data of an event says, with names in certificates and words for numbers."""
    return in_words(with_names(value)) if isinstance(value, dict) else value


def options_of(words: Sequence[str]) -> argparse.Namespace:
    parser = argparse.ArgumentParser(
        prog="ima-report", description=ABOUT, formatter_class=argparse.RawDescriptionHelpFormatter, usage="ima-report [OPTION].. FOLDER"
    )
    add = parser.add_argument
    add("--require", metavar="SELECTION", action=Once, help=f"what must be quoted or expected (default: sha256:0-10); {NONE} if it may be anything")
    add("--known", metavar="FILE", action="append", default=[], help="what sha256sum printed of known files; may be given several times")
    add("--prefix", action="store_true", help="judge the shortest prefix of the list that the PCRs confirm")
    add("--hcrtm", action="store_true", help=HCRTM)
    add("--old-kernel", action="store_true", help=OLD_KERNEL)
    add("--before", metavar="EARLIER", action=Once, help="the folder of an earlier boot, or its log: compare with it, PCR by PCR")
    add("--key", metavar="KEY", action=Once, help="the key of the machine's TPM, NAME.pub or its PEM, with --nonce: judge by the quote")
    add("--nonce", metavar="HEX", action=Once, help="the nonce that was given out for the quote, with --key")
    add("--sha1", action="store_true", help="with --key: take PCRs that are required only in the SHA-1 bank")
    add("--title", metavar="TEXT", action=Once, help="the page's title (default: FOLDER)")
    add("--most", metavar="N", type=positive, default=10000, help="how many events and entries are shown (default: 10000)")
    add("--seconds", metavar="N", type=positive, default=600, help="how long the program may take for an answer (default: 600)")
    add("--program", metavar="PATH", default="ima-agent", help="the program (default: ima-agent, on PATH, whose relative and empty entries are skipped)")
    add("folder", metavar="FOLDER", help="the folder with the boot's files")
    options = parser.parse_args(words)
    if (options.key is None) != (options.nonce is None):
        parser.error("--key and --nonce go together: a quote is judged by both")
    if options.sha1 and options.key is None:
        parser.error("--sha1 needs a quote, with --key and --nonce")
    if options.old_kernel and options.require == NONE:
        parser.error(f"--old-kernel needs required PCRs, and not --require {NONE}")
    return options


def criteria_of(options: argparse.Namespace) -> Criteria:
    """What a boot is judged by, by these options."""
    program = program_of(options.program)
    require = options.require or "sha256:0-10"
    return Criteria(
        str(program), None if require == NONE else require, options.known, options.before, options.key,
        options.nonce, options.prefix, options.sha1, options.hcrtm, options.old_kernel, options.most, options.seconds,
    )


def report(words: Sequence[str]) -> int:
    """Writes the page that these words ask for, and gives the exit status."""
    try:
        options = options_of(words)
    except SystemExit as end:
        return _WRONG if end.code else 0
    for number in SIGNALS:
        signal.signal(number, lambda *_: sys.exit(STOPPED))  # (so that what is copied goes)
    try:
        criteria = criteria_of(options)
        with tempfile.TemporaryDirectory(prefix="ima-report.") as work:
            boot = boot_of(Path(options.folder), criteria, Path(work))
        write_page(page_of(boot, criteria, Call(words), options.title or options.folder))
    except NoProgram as fault:
        print(f"ima-report: {ascii(str(fault))[1:-1]}", file=sys.stderr)
        return STOPPED
    except OSError as fault:
        print(f"ima-report: no page: {ascii(cause_of(fault))[1:-1]}", file=sys.stderr)
        return STOPPED
    except Exception as fault:  # none that was foreseen
        print(f"ima-report: no page: an error of ima-report itself: {ascii(cause_of(fault))[1:-1]}", file=sys.stderr)
        return STOPPED
    return boot.status
