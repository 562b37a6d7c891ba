"""`fleet-verify page TABLE`: a page of a table of verdicts, to look at."""

import argparse
import sqlite3
from pathlib import Path
from typing import Dict, Optional, Sequence

from . import __version__
from .ending import NotStarted, complain
from .known import BadKnown, Known, read_known
from .machine_reports import Link, Wanted, judged_machines, make_reports
from .opening import BadVerdicts
from .options import DAY, Once, Parser, duration, positive
from .overview import overview_of, snapshot_of
from .plot import KINDS, REBOOT, Bar, plot_of
from .program import NoProgram, program_of
from .reading import cause_of, now
from .rendering import render, write_page

ABOUT = """Writes an HTML page to standard output: how many machines have each verdict, which do not match and why, what changed over time, and
how old quotes are.

fleet-verify page [OPTION].. TABLE

TABLE is a table of verdicts. It is only read, even during a run. The page loads nothing and stores nothing. With --reports it links to a
page on each machine that does not match, if that machine's files are in one local folder.

Exit status: 0 if the page was written; 2 if the arguments or TABLE are refused; 3 if the page could not be written. It says nothing
about the machines."""

_MOST_REASONS = 200

# The class of each kind of change, for its colour.
_CLASSES = {kind: "other" if kind == REBOOT else kind for kind in KINDS}


def _polls(bar: Bar) -> str:
    return f"poll {bar.first}" if bar.first == bar.last else f"polls {bar.first} to {bar.last}"


def page_of(options: argparse.Namespace, known: Optional[Known]) -> bytes:
    """The page of a table, and the reports on machines that are asked for."""
    wanted = None if options.reports is None else wanted_of(options, known)
    with snapshot_of(options.table) as connection:
        fleet = overview_of(connection, options.max_age)
        judged = judged_machines(connection) if wanted is not None else {}
    listed = [judged[problem.machine] for problem in fleet.problems[:options.most] if problem.machine in judged]
    links: Dict[str, Link] = make_reports(listed, wanted) if wanted is not None else {}
    return render(
        "page.html", fleet=fleet, plot=plot_of(fleet.bars) if fleet.bars else None, polls=_polls, classes=_CLASSES,
        title=options.title or options.table, most=options.most, most_reasons=min(options.most, _MOST_REASONS), links=links,
        has_reports=wanted is not None, made=now(), version=__version__,
    )


def wanted_of(options: argparse.Namespace, known: Optional[Known]) -> Wanted:
    """The reports that these options ask for, whose folder is made if it is not there."""
    program, folder = program_of(options.program), Path(options.reports)
    try:
        folder.mkdir(exist_ok=True)
    except OSError as fault:
        raise NotStarted(f"{folder}: {cause_of(fault)}") from None
    digest = None if known is None else known.sha256
    return Wanted(folder, options.keys, options.known, digest, str(program), options.most_reports, options.report_seconds)


def options_of(words: Sequence[str]) -> argparse.Namespace:
    parser = Parser("fleet-verify page", ABOUT)
    add = parser.add_argument
    add("--title", metavar="TEXT", help="the page's title (default: TABLE)")
    add("--most", metavar="N", type=positive, default=1000, help="how many machines that do not match are listed with reasons (default: 1000)")
    add(
        "--max-age", metavar="AGE", type=duration, default=DAY,
        help="warn if the last run ended longer ago than this, in seconds or as 90m, 1h, 2d (default: 1d)",
    )
    add(
        "--reports", metavar="FOLDER", action=Once,
        help="make ima-report's page for machines that differ or are refused, in FOLDER, and link to it from the current folder",
    )
    add("--keys", metavar="FOLDER", action=Once, help="with --reports: the folder of keys, as for a run; machines with a quote need it")
    add("--known", metavar="FILE", action="append", default=[], help="with --reports: the lists of known files of the run, in the same order")
    add("--most-reports", metavar="N", type=positive, default=100, help="how many reports to make at most (default: 100)")
    add("--report-seconds", metavar="SECONDS", type=positive, default=600, help="how long all reports may take together (default: 600)")
    add("--program", metavar="PATH", default="ima-agent", help="with --reports: the program (default: ima-agent, on PATH)")
    add("table", metavar="TABLE", help="the table of verdicts")
    options = parser.parse(words)
    if options.reports is None and (options.keys is not None or options.known):
        parser.error("--keys and --known are for --reports")
    return options


def main(words: Sequence[str]) -> int:
    """The exit status of a call with these words."""
    options = options_of(words)
    try:
        known = read_known(options.known) if options.known else None
        write_page(page_of(options, known))
    except (sqlite3.Error, BadVerdicts) as fault:
        return complain(f"refused: {options.table}: {fault}", 2)
    except (BadKnown, NoProgram, NotStarted) as fault:
        return complain(f"refused: {fault}", 2)
    except Exception as fault:  # of the system, or none that was foreseen
        return complain(f"no page: {cause_of(fault)}", 3)
    return 0
