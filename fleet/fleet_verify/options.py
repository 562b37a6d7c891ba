"""The arguments of `fleet-verify`."""

import argparse
import re
from dataclasses import dataclass
from difflib import get_close_matches
from typing import Any, List, Optional, Sequence

from . import __version__
from .verdict import NONE
from .verdicts import VERDICTS

ABOUT = """Verifies the boot logs, measurement lists and quotes of many machines, with local processes or on a cluster.

fleet-verify --workers N --require SELECTION --keys FOLDER [OPTION].. MACHINES TABLE
fleet-verify --scheduler ADDRESS --require SELECTION --keys FOLDER [OPTION].. MACHINES TABLE
fleet-verify nonces MACHINES TABLE
fleet-verify page TABLE

MACHINES lists the machines. Each line has a name and a folder, or a name and the paths of the machine's files, separated by tabs. TABLE
is the table of verdicts, an SQLite file, which is created if it is missing. The workers are N processes on this computer, or those of a
Dask scheduler. They read the files themselves, and need the Python package `ima_verify` and its library.

Each machine is judged by a quote of its TPM for a nonce from `fleet-verify nonces`, with its key, NAME.pub in the folder of --keys. With
--unquoted it is judged by expected PCRs instead. `page` writes a page about TABLE.

SELECTION names the PCRs that must be quoted or expected, including PCR 10, such as sha256:0-10 or sha256:all. With --unquoted it may be
`none`.

With --known every new entry of a list must match a digest listed in a FILE, in the format of sha256sum. FILE is read here, once.

With --poll each run verifies all machines, each from its checkpoint in TABLE if it has one.

Run the same command again to resume after a stop: it verifies the machines that TABLE lacks. Progress goes to standard error. At the end
the number of machines with each verdict goes to standard output, and the most frequent reasons go to standard error. Exit status: 0 if
every machine matches; 1 if some differ or are refused; 2 if the arguments or a table are refused; 3 if the run could not continue; 4 if
none differs or is refused, but some are unreadable or failed. See docs/fleet.md."""

MINUTE, HOUR, DAY = 60, 60 * 60, 24 * 60 * 60
MOST_SECONDS = 36500 * DAY
HCRTM = "if the log states no locality, an event EV_EFI_HCRTM_EVENT states that PCR 0 started at 4, as on machines with an H-CRTM"
OLD_KERNEL = "accept a boot aggregate over PCRs 0 to 7, as kernels before 5.8 make it; needs required PCRs"
PREFIX = (
    "judge the shortest prefix of each list that its PCRs confirm, for lists that grow while they are collected: nothing confirms the "
    "entries that follow"
)
_UNITS = {"": 1, "s": 1, "m": MINUTE, "h": HOUR, "d": DAY}


@dataclass(frozen=True)
class Options:
    """The arguments of a run, by the names of its options. All times are in seconds."""

    machines: str
    table: str
    require: str
    scheduler: Optional[str]
    workers: Optional[int]
    insecure: bool
    keys: Optional[str]
    unquoted: bool
    max_age: Optional[int]
    known: List[str]
    hcrtm: bool
    old_kernel: bool
    prefix: bool
    again: Optional[List[str]]
    poll: bool
    whole: bool
    prune: bool
    keep: int
    json: bool
    metrics: Optional[str]
    in_flight: int
    deadline: int
    patience: int
    progress: int


class Once(argparse.Action):
    """An option that may be given once: a second one does not replace the first."""

    def __call__(self, parser: argparse.ArgumentParser, namespace: argparse.Namespace, values: Any, option_string: Any = None) -> None:
        if getattr(namespace, self.dest) is not None:
            parser.error(f"{option_string} is given twice")
        setattr(namespace, self.dest, values)


def verdict_kinds(text: str) -> List[str]:
    kinds = [] if text == NONE else text.split(",")
    if not set(kinds) <= set(VERDICTS):
        raise argparse.ArgumentTypeError(f"{text!r} is neither {NONE} nor some of {','.join(VERDICTS)}, separated by commas")
    return kinds


def address(text: str) -> str:
    if not re.fullmatch(r"(tcp|tls|ws|wss|ucx)://.+:[0-9]+", text):
        raise argparse.ArgumentTypeError(f"{text!r} is no address such as tls://computer:8786")
    return text


def positive(text: str) -> int:
    if not re.fullmatch("[0-9]{1,18}", text) or int(text) < 1:
        raise argparse.ArgumentTypeError(f"{text!r} is no whole number from 1 on")
    return int(text)


def duration(text: str) -> int:
    """The seconds that a text such as `3600`, `90m`, `1h` or `2d` names."""
    found = re.fullmatch(r"([0-9]{1,10})([smhd]?)", text)
    seconds = int(found[1]) * _UNITS[found[2]] if found else 0
    if not 1 <= seconds <= MOST_SECONDS:
        raise argparse.ArgumentTypeError(f"{text!r} is no duration: write seconds, or a number with a unit, such as 90m, 1h or 2d")
    return seconds


def add_inputs(parser: argparse.ArgumentParser) -> None:
    """Adds what the machines are judged by."""
    parser.add_argument(
        "--require", metavar="SELECTION", action=Once,
        help="the PCRs that must be quoted or expected, including PCR 10, such as sha256:0-10 or sha256:0-14+sha1:10; or, with "
        f"--unquoted, {NONE}",
    )
    parser.add_argument("--keys", metavar="FOLDER", action=Once, help="the folder with the key of each machine's TPM: NAME.pub, or its PEM")
    parser.add_argument(
        "--unquoted", action="store_true",
        help="use expected.txt in each machine's folder instead of a quote: a match then says only that log and list make these PCRs",
    )
    parser.add_argument(
        "--max-age", metavar="AGE", action=Once, type=duration,
        help="the maximum age of a quote's nonce (by default, and at most, that of `nonces`); with --unquoted the maximum time since the list "
        "changed (default: any age). Seconds, or 90m, 1h, 2d: anything older is unreadable",
    )
    parser.add_argument(
        "--known", metavar="FILE", action="append",
        help="a list of known files, in the format of sha256sum: an entry for any other file makes its machine differ; may be repeated",
    )
    parser.add_argument("--hcrtm", action="store_true", help=HCRTM)
    parser.add_argument("--old-kernel", action="store_true", help=OLD_KERNEL)
    parser.add_argument("--prefix", action="store_true", help=PREFIX)


def add_table_options(parser: argparse.ArgumentParser) -> None:
    """Adds what is done with the table of verdicts, and what is printed about it."""
    parser.add_argument(
        "--again", metavar="KINDS", action=Once, type=verdict_kinds,
        help=f"verify machines with these verdicts again, such as refused,unreadable,failed; {NONE} keeps all verdicts",
    )
    parser.add_argument(
        "--poll", action="store_true",
        help="verify all machines, each from its checkpoint in TABLE, and record which verdicts change",
    )
    parser.add_argument(
        "--whole", action="store_true", help="with --poll: ignore checkpoints, and read every list from its beginning",
    )
    parser.add_argument(
        "--prune", action="store_true",
        help="retire machines in TABLE that are missing from MACHINES or have other paths there: their verdicts are kept, but not counted",
    )
    parser.add_argument(
        "--keep", metavar="AGE", type=duration, default=400 * DAY,
        help="how long to keep changes, polls and retired machines, such as 90d (default: 400d)",
    )
    parser.add_argument("--json", action="store_true", help="print the counts, and the first machines that do not match, as one JSON object")
    parser.add_argument(
        "--metrics", metavar="FILE", action=Once, help="write the run's results to FILE, for the textfile collector of Prometheus's node_exporter",
    )


def add_running(parser: argparse.ArgumentParser) -> None:
    """Adds where machines are verified, and how long that may take."""
    workers = parser.add_mutually_exclusive_group()
    workers.add_argument("--workers", metavar="N", type=positive, help="start N workers on this computer")
    workers.add_argument("--scheduler", metavar="ADDRESS", type=address, help="the address of a Dask scheduler, such as tls://computer:8786")
    parser.add_argument(
        "--insecure", action="store_true",
        help="allow a scheduler without TLS: whoever reaches its ports, or its workers' ports, can run code there and make verdicts",
    )
    parser.add_argument(
        "--in-flight", metavar="N", type=positive, default=16000,
        help="the maximum number of machines in flight (default: 16000; never more than a worker thread handles in half a second)",
    )
    parser.add_argument(
        "--deadline", metavar="SECONDS", type=positive, default=60,
        help="how long a worker may take for one machine, which is unreadable after that (default: 60)",
    )
    parser.add_argument(
        "--patience", metavar="SECONDS", type=positive, default=600,
        help="give up if no machine is finished for this long (default: 600)",
    )
    parser.add_argument(
        "--progress", metavar="SECONDS", type=positive, default=10,
        help="the interval between progress lines if standard error is not a terminal (default: 10)",
    )


class Parser(argparse.ArgumentParser):
    """A parser of a command's arguments, whose help begins with this text. A wrong option is named with the nearest right one."""

    def __init__(self, command: str, about: str):
        super().__init__(prog=command, description=about, formatter_class=argparse.RawDescriptionHelpFormatter, usage=argparse.SUPPRESS)

    def parse(self, words: Sequence[str]) -> argparse.Namespace:
        """The options and arguments that these words name. Wrong ones end the process, with status 2."""
        for word in words:
            if word == "--":
                break
            name = word.partition("=")[0]
            if name.startswith("--") and not any(option.startswith(name) for option in self._option_string_actions):
                near = get_close_matches(name, self._option_string_actions, 1)
                self.error(f"there is no option {name}{f': did you mean {near[0]}?' if near else f' ({self.prog} --help lists all)'}")
        return self.parse_args(words)


def parser_of_runs() -> Parser:
    """The parser of all arguments of a run."""
    parser = Parser("fleet-verify", ABOUT)
    add_running(parser)
    add_inputs(parser)
    add_table_options(parser)
    parser.add_argument("--version", action="version", version=f"%(prog)s {__version__}", help="print the version and exit")
    parser.add_argument("machines", metavar="MACHINES", help="the list of machines")
    parser.add_argument("table", metavar="TABLE", help="the table of verdicts")
    return parser


def fault_of(found: argparse.Namespace) -> Optional[str]:
    """Why these arguments, each right in itself, are refused together, if they are."""
    if found.workers is None and found.scheduler is None:
        return "--workers or --scheduler is missing: write --workers N to verify on this computer, or --scheduler ADDRESS to use a cluster"
    if found.require is None:
        return (
            "--require is missing: name the PCRs that must be quoted or expected, as --require sha256:0-10, "
            f"or --require {NONE} with --unquoted to require no PCR"
        )
    if found.keys is None and not found.unquoted:
        return "--keys is missing: name the folder with the key of each machine's TPM, or use --unquoted to judge machines without quotes"
    if found.keys is not None and found.unquoted:
        return "--keys is for quotes, and --unquoted takes none: leave out one of them"
    if found.known and found.require == NONE:
        return f"--known needs required PCRs, not --require {NONE}: without PCR 10 no entry is confirmed"
    if found.prefix and found.require == NONE:
        return f"--prefix needs required PCRs, not --require {NONE}: without PCR 10 a prefix without entries would match"
    if found.old_kernel and found.require == NONE:
        return f"--old-kernel needs required PCRs, not --require {NONE}"
    if found.whole and not found.poll:
        return "--whole is for --poll: any other run reads whole lists"
    if found.poll and found.again is not None:
        return "--again is not for --poll, which gives every verdict again"
    return None


def options_of(words: Sequence[str]) -> Options:
    """The options that these words name. Wrong ones end the process, with status 2."""
    parser = parser_of_runs()
    found = parser.parse(words)
    fault = fault_of(found)
    if fault is not None:
        parser.error(fault)
    if found.poll:
        found.again = list(VERDICTS)
    found.known = found.known or []
    return Options(**vars(found))
