"""What a run came to: its counts, its duration, and what does not match, for programs that read JSON."""

import json
import math
from dataclasses import dataclass, field
from time import monotonic
from typing import Any, Dict, List, Mapping, Optional

from .reading import now
from .verdicts import Verdicts

# How many machines that do not match are named, and how many reasons are given beside the counts.
MOST_NAMED, MOST_CAUSES = 100, 3

_REASONS = "SELECT verdict, why, machines, reason FROM reasons ORDER BY machines DESC, verdict, why, reason"
_NAMED = """
SELECT machine, verdict, cause, reason, boot_aggregate, unknown, first_unknown, report FROM verdicts WHERE verdict <> 'match'
ORDER BY verdict <> 'differ', verdict <> 'refused', verdict <> 'failed', machine LIMIT ?
"""
# (a time that is none is no age: then the oldest is infinitely old)
_OLDEST_MATCH = "SELECT max(ifnull((julianday('now') - julianday(time)) * 86400, 9e999)) FROM verdicts WHERE verdict = 'match'"


@dataclass
class Summary:
    """What is known of a run, as far as it came.

    Attributes:
        machines: How many the table of machines has.
        counts: How many have each verdict by this run, or one that stands.
        done: How many verdicts this run gave.
        poll: Its number, if it is a poll that began.
        retired: How many machines it retired.
        oldest_match: How many seconds ago the oldest match was given.
        reasons, named: The reasons with their numbers, and the first machines that do not match, once the run has given its counts.
        prefixes: How many matches do not cover their whole lists, by then.
        status, ended, seconds: The exit status, when the run ended, and how long it took.
    """

    machines: Optional[int] = None
    counts: Dict[str, int] = field(default_factory=dict)
    done: int = 0
    poll: Optional[int] = None
    retired: int = 0
    oldest_match: Optional[float] = None
    reasons: List[Dict[str, Any]] = field(default_factory=list)
    named: List[Dict[str, Any]] = field(default_factory=list)
    prefixes: int = 0
    status: int = 3
    ended: str = ""
    seconds: float = 0
    _begun: float = field(default_factory=monotonic)

    def count(self, table: Verdicts) -> None:
        """Takes over what the table has of the run."""
        self.poll, self.counts = table.poll, table.counts()
        self.oldest_match = table.connection.execute(_OLDEST_MATCH).fetchone()[0]

    def look(self, table: Verdicts) -> None:
        """Takes over why machines do not match."""
        rows = table.connection.execute(_REASONS)
        self.reasons = [{"verdict": verdict, "cause": cause, "machines": count, "reason": reason} for verdict, cause, count, reason in rows]
        self.prefixes = table.connection.execute("SELECT count(*) FROM prefixes").fetchone()[0]
        self.named = [_named(*row) for row in table.connection.execute(_NAMED, (MOST_NAMED,))]

    @property
    def lines(self) -> List[str]:
        """What is to be said beside the counts: why most machines do not match, and how many matches cover less than their lists."""
        told = [each for each in self.reasons if each["verdict"] != "match"]
        lines = [f"{each['verdict']} {each['machines']}: {each['reason'] or each['cause'] or 'no reason is known'}" for each in told[:MOST_CAUSES]]
        lines += [f"{len(told) - MOST_CAUSES} more reasons: see the view `reasons`, or `fleet-verify page`"] if len(told) > MOST_CAUSES else []
        return lines + ([f"match {self.prefixes}: of the list only a prefix is confirmed, and nothing after it"] if self.prefixes else [])

    def end(self, status: int) -> None:
        """Notes that the run has ended, with this status."""
        self.status, self.ended, self.seconds = status, now(), monotonic() - self._begun

    @property
    def without_verdict(self) -> Optional[int]:
        """How many machines have no verdict by this run, nor one that stands; None if it is not known which machines there are."""
        return None if self.machines is None else self.machines - sum(self.counts.values())

    @property
    def rate(self) -> float:
        """How many verdicts the run gave in a second."""
        return self.done / self.seconds if self.seconds else 0

    @property
    def json(self) -> str:
        """All this as one object, in one line."""
        different = sum(self.counts.values()) - self.counts["match"]
        return json.dumps({
            "status": self.status, "time": self.ended, "poll": self.poll, "machines": self.machines, "verdicts": self.counts,
            "retired": self.retired, "seconds": round(self.seconds, 3), "machines_a_second": round(self.rate, 1),
            "oldest_match_seconds": None if self.oldest_match is None or math.isinf(self.oldest_match) else round(self.oldest_match, 1),
            "matching_prefixes": self.prefixes, "reasons": self.reasons, "not_matching": self.named, "not_matching_more": different - len(self.named),
        })


def exit_status(counts: Mapping[str, int], machines: int) -> int:
    """The status of a run with verdicts on all these machines: whether each matches, one differs or is refused, or some only were not judged."""
    if counts["match"] == machines:
        return 0
    return 1 if counts["differ"] or counts["refused"] else 4


def _named(
    machine: str, verdict: str, cause: Optional[str], reason: Optional[str], boot_aggregate: Optional[str], unknown: Optional[int],
    first_unknown: Optional[int], report: Optional[str],
) -> Dict[str, Any]:
    """A machine that does not match, with its cause, or if it differs what its report says of that."""
    if report is None:
        return {"machine": machine, "verdict": verdict, "cause": cause, "reason": reason}
    told = json.loads(report)
    return {
        "machine": machine, "verdict": verdict, "cause": cause, "reason": reason, "boot_aggregate": boot_aggregate,
        "registers": [row for row in told.get("registers", []) if row["state"] != "match"],
        "extends": told.get("extends", []), "quote": told.get("quote"), "unknown": unknown, "first_unknown": first_unknown,
    }
