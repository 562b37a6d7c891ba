"""`fleet-verify`: its arguments, and its exit status whatever comes."""

import sys
from importlib import import_module
from typing import TYPE_CHECKING, Optional, Sequence

from .ending import CannotGoOn, NotStarted, complain, stop, stop_simply
from .modules import elsewhere

if TYPE_CHECKING:
    from .options import Options
    from .summary import Summary

# What is no run, by its first word: a module with a `main` of its own.
COMMANDS = ("nonces", "page")


def main(words: Optional[Sequence[str]] = None) -> int:
    """The exit status of a call with these words, or with those of the command line."""
    stop_simply()
    sys.path[:] = elsewhere(sys.path)
    words = sys.argv[1:] if words is None else words
    if words and words[0] in COMMANDS:
        status: int = import_module(f".{words[0]}", __package__).main(words[1:])
        return status
    if words and (meant := nearest_command(words)):
        return complain(f"refused: there is no command {words[0]!r}: did you mean {meant!r}? (`fleet-verify {meant} --help`)", 2)
    from .options import options_of
    from .summary import Summary

    options, summary = options_of(words), Summary()
    summary.end(run_status(options, summary))
    return summary.status if options.metrics is None else noted(options.metrics, summary, options.table)


def nearest_command(words: Sequence[str]) -> Optional[str]:
    """The command that the first word may stand for, if these are no words of a run: that says who verifies."""
    from difflib import get_close_matches

    is_run = words[0].startswith("-") or any(word.startswith(("--w", "--sc")) for word in words)
    found = [] if is_run else get_close_matches(words[0], COMMANDS, 1)
    return found[0] if found else None


def run_status(options: "Options", summary: "Summary") -> int:
    """The exit status of a run, of which the summary has what it came to."""
    from .reading import cause_of
    from .verifying import verify_fleet

    try:
        return verify_fleet(options, summary)
    except NotStarted as fault:
        return complain(f"refused: {fault}", 2)
    except CannotGoOn as fault:
        return stop(str(fault), fault)
    except Exception as fault:  # of Dask, of the network, of SQLite, or none that was foreseen
        return stop(cause_of(fault), fault)


def noted(path: str, summary: "Summary", table: str) -> int:
    """The exit status of a run in this table, whose metrics are written to this file: no success if they are not."""
    from .metrics import write_metrics
    from .reading import cause_of

    try:
        write_metrics(path, summary, table)
    except OSError as fault:
        return complain(f"the metrics are not written: {path}: {cause_of(fault)}", summary.status or 3)
    return summary.status
