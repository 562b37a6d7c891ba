"""The metrics of a run, as text for Prometheus: node_exporter's textfile collector reads them from a file."""

import math
import os
from contextlib import contextmanager, suppress
from datetime import datetime
from pathlib import Path
from tempfile import NamedTemporaryFile
from typing import IO, Dict, Iterator, List, Mapping, Optional

from .summary import Summary
from .verdicts import VERDICTS

# They have no name of a machine, and the collector is another user.
_MODE = 0o644


def metrics_of(summary: Summary, table: str) -> str:
    """The metrics in Prometheus's text format, version 0.0.4, with the name of the table of verdicts. What is not known is left out."""
    machines: Dict[str, Optional[float]] = {verdict: summary.counts.get(verdict) for verdict in VERDICTS}
    machines["none"] = summary.without_verdict
    ended = datetime.fromisoformat(summary.ended).timestamp()
    return "".join([
        *_metric("status", "Exit status of the last run: 0 if every machine matches.", table, {"": summary.status}),
        *_metric("end_timestamp_seconds", "When the last run ended.", table, {"": ended}),
        *_metric("duration_seconds", "How long the last run took.", table, {"": summary.seconds}),
        *_metric("machines_per_second", "Verdicts that the last run gave, by its duration.", table, {"": summary.rate}),
        *_metric("oldest_match_age_seconds", "Age of the oldest match, at the end of the last run.", table, {"": summary.oldest_match}),
        *_metric("machines", "Machines by their verdicts; none: without one by the last run.", table, machines),
    ])


def _metric(name: str, text: str, table: str, values: Mapping[str, Optional[float]]) -> List[str]:
    """The lines of a gauge, with a sample for each value that is known, by its verdict if it has one."""
    samples = []
    for verdict, value in values.items():
        labels = {"table": table, **({"verdict": verdict} if verdict else {})}
        written = ",".join(f'{label}="{_escaped(of)}"' for label, of in labels.items())
        if value is not None:
            samples.append(f"ima_fleet_{name}{{{written}}} {'+Inf' if math.isinf(value) else repr(value)}\n")
    return [f"# HELP ima_fleet_{name} {text}\n# TYPE ima_fleet_{name} gauge\n", *samples] if samples else []


def _escaped(text: str) -> str:
    """A label's value, in which what the format gives a meaning is escaped, and is UTF-8."""
    for letter, escape in (("\\", r"\\"), ('"', r"\""), ("\n", r"\n")):
        text = text.replace(letter, escape)
    return text.encode(errors="replace").decode()


@contextmanager
def _new_file(path: Path) -> Iterator[IO[str]]:
    """A new file beside this one, which is gone at the end if it did not take its place. Who has the folder may give its name to another file:
    it is written and changed as it is open, and never by that name. (The collector reads no file with such an end.)"""
    with NamedTemporaryFile("w", dir=path.parent, prefix=f".{path.name}.", suffix=".new", encoding="utf-8", delete=False) as file:
        try:
            yield file
        finally:
            with suppress(FileNotFoundError):
                os.unlink(file.name)


def require_writable(path: str) -> None:
    """Makes sure that the metrics can be written, before a run begins."""
    if Path(path).is_dir():
        raise IsADirectoryError("it is a folder")
    with _new_file(Path(path)):
        pass


def write_metrics(path: str, summary: Summary, table: str) -> None:
    """Writes the metrics to this file, which is whole whenever it is read."""
    with _new_file(Path(path)) as file:
        file.write(metrics_of(summary, table))
        file.flush()
        os.fchmod(file.fileno(), _MODE)
        os.replace(file.name, path)
