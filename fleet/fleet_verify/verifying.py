"""What a call of `fleet-verify` does, from its options to its exit status."""

import asyncio
import math
import os
import signal
import sqlite3
import sys
from contextlib import closing, contextmanager, suppress
from datetime import datetime, timedelta
from typing import Dict, Iterator, Optional, Sequence

from .ending import SIGNALLED, SIGNALS, CannotGoOn, NotStarted, complain, stop_simply, telling
from .known import BadKnown, Known, read_known
from .ledger import Ledger
from .machines import BadTable, Machine, read_machines
from .metrics import require_writable
from .options import Options
from .progress import Progress
from .reading import cause_of, now
from .run import Run
from .summary import Summary, exit_status
from .verdict import require_fitness
from .verdicts import VERDICTS, BadVerdicts, Quoting, Verdicts
from .wording import without_place
from .workers import connect, require_fit

# How many machines that are retired are named.
MOST_NAMED = 10


def stop_at_signals() -> None:
    """The first SIGINT or SIGTERM cancels this task, which then closes what is open. The next one ends the process at once."""
    task, loop = asyncio.current_task(), asyncio.get_running_loop()

    def stop() -> None:
        for number in SIGNALS:
            loop.remove_signal_handler(number)
            signal.signal(number, signal.SIG_DFL)
        if task is not None:
            task.cancel()

    for number in SIGNALS:
        loop.add_signal_handler(number, stop)


def unfit(fault: ValueError, known: Optional[Known]) -> NotStarted:
    """Why nothing is started, by what `require_fitness` says of what is required or of a line of known files."""
    if known is None or len(fault.args) != 3:
        return NotStarted(fault)
    number, line, words = fault.args
    return NotStarted(f"{known.place(line)}: known fault {number}. {without_place(words)}")


async def run(
    options: Options, known: Optional[Known], table: Verdicts, machines: Sequence[Machine], recorded: Dict[str, str], summary: Summary
) -> None:
    """Verifies the machines that the table lacks, and those that are to be verified anew."""
    before = {name: verdict for name, verdict in recorded.items() if verdict in (options.again or ())}
    missing = [machine for machine in machines if machine.name not in recorded or machine.name in before]
    if not missing:
        return
    stop_at_signals()
    progress = Progress(len(machines), recorded.values(), VERDICTS, sys.stderr, options.progress)
    try:
        async with connect(options, None if known is None else known.text) as workers:
            try:
                await require_fit(workers, options)
            except ValueError as fault:
                raise unfit(fault, known) from None
            progress.begin()
            if options.poll:
                taken = table.begin_poll(now(), options.whole)
                missing = [machine for machine in missing if machine.name not in taken]
            ledger = Ledger(table, missing, before, options.poll and not options.whole, progress.count)
            try:
                await Run(workers, ledger, progress, options).verify()
            finally:
                progress.show(ledger.left, len(workers.threads), is_last=True)
    except asyncio.CancelledError:
        raise CannotGoOn(SIGNALLED) from None
    finally:
        summary.done = progress.done_now


def judge(options: Options) -> Optional[Known]:
    """The known files, if any are named. Refuses a wrong one, and a wrong `--require`. Where this computer lacks the library, the workers do, by
    theirs."""
    try:
        known = read_known(options.known) if options.known else None
    except BadKnown as fault:
        raise NotStarted(fault) from None
    try:
        require_fitness(options.require, options.poll, None if known is None else known.text, not options.unquoted)
    except ImportError:
        pass
    except ValueError as fault:
        raise unfit(fault, known) from None
    return known


@contextmanager
def refusing(path: str) -> Iterator[None]:
    """Nothing is started with this file, if something is wrong with it."""
    try:
        yield
    except OSError as fault:
        raise NotStarted(f"{path}: {cause_of(fault)}") from None
    except (sqlite3.Error, BadTable, BadVerdicts) as fault:
        raise NotStarted(f"{path}: {fault}") from None


def opened(options: Options, known: Optional[Known]) -> Verdicts:
    """The table of verdicts, if the keys are where they are said to be."""
    quoting = None
    if options.keys is not None:
        with refusing(options.keys):
            os.scandir(options.keys).close()
        quoting = Quoting(options.keys, options.max_age or math.inf)
    with refusing(options.table):
        digest = None if known is None else known.sha256
        return Verdicts(options.table, options.require, digest, quoting, options.hcrtm, options.old_kernel, options.prefix)


def recorded_in(table: Verdicts, machines: Sequence[Machine], options: Options, summary: Summary) -> Dict[str, str]:
    """By name the verdict of each machine that has one in the table, with which this run may go on. Retires those that are gone, if it may."""
    if options.poll:
        table.require_whole()
    gone = table.gone(machines) if options.prune else []
    recorded = table.recorded(machines, options.poll, set(gone))
    if options.again is None:
        table.require_no_end()
    if gone:
        table.retire(gone, now())
        summary.retired = len(gone)
        names = ", ".join([*gone[:MOST_NAMED], *([".."] if len(gone) > MOST_NAMED else [])])
        complain(f"{len(gone)} retired, as MACHINES lacks them or has other paths: {names}", 0)
    return recorded


def verify_fleet(options: Options, summary: Summary) -> int:
    """Verifies what is to be verified, prints how many machines have each verdict, and gives the exit status. The summary has what is known of
    the run, however it ends."""
    if options.metrics is not None:
        with refusing(options.metrics):
            require_writable(options.metrics)
    known = judge(options)
    with refusing(options.machines):
        machines = read_machines(options.machines, not options.unquoted)
    summary.machines = len(machines)
    with closing(opened(options, known)) as table:
        with refusing(options.table):
            recorded = recorded_in(table, machines, options, summary)
        standing, since = table.standing(options.again or [])
        if standing:
            complain(f"verdicts that stand from earlier runs: {standing}, the oldest since {since}; --again gives new ones", 0)
        try:
            asyncio.run(run(options, known, table, machines, recorded, summary))
        finally:
            stop_simply()
            with suppress(sqlite3.Error):  # (what stops the run is told, and not that its counts are not known)
                summary.count(table)
        return print_counts(options, table, summary)


def print_counts(options: Options, table: Verdicts, summary: Summary) -> int:
    """Prints the counts of a run that gave all verdicts, and notes its end in the table; gives the exit status."""
    summary.count(table)
    if summary.without_verdict != 0:
        raise CannotGoOn("another run records in this table")
    summary.look(table)
    summary.end(exit_status(summary.counts, sum(summary.counts.values())))
    with telling() as output:
        print(summary.json if options.json else "\n".join(f"{kind} {summary.counts[kind]}" for kind in VERDICTS), file=output)
    for line in [] if options.json else summary.lines:
        complain(line, 0)
    end = datetime.fromisoformat(summary.ended)
    oldest = (end - timedelta(seconds=options.keep)).isoformat(timespec="milliseconds")
    table.end(summary.ended, oldest)  # (not before, so that the same command goes on until the counts are told)
    return summary.status
