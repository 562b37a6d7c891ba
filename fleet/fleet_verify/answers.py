"""Reads what a worker answered on a batch. Nothing that is not on the machine that was asked for, or contradicts itself, is a verdict."""

import json
import re
from typing import List, NamedTuple, Optional, Sequence

from .machines import Machine
from .reading import Fields
from .verdict import REPORTED, TROUBLED, UNFIT, Asked
from .verdicts import VERDICTS
from .work import SLOW


# How a report ends: by known files, by a quote, by both or by neither; and with what such an end begins, of which the first is there that can be.
_BEGINNINGS = (',"known_from":', ',"quote":', ',"verdict":')
_END = re.compile(
    r'(?:,"known_from":\d+,"unknown":\[(?P<unknown>(?:\d+(?:,\d+)*)?)\])?'
    r'(?:,"quote":"(?P<quote>match|differ)","signature":"valid")?'
    r',"verdict":"(?P<verdict>match|differ)"\}$'
)


# How many entries a report is on, and with a confirmed prefix how many of these are in it. (Before these members a report has no text.)
_CONFIRMED = re.compile(r'"entries":(?P<entries>\d+),"confirmed":(?P<confirmed>\d+)[,}]')


class Answered(NamedTuple):
    """A worker's answers on the first machines of a batch, and the seconds that they took it."""

    worker: str
    answers: List[Fields]
    seconds: float


class BadAnswers(Exception):
    """What came is no answers on this batch; the text says why."""


def read_answers(text: str, machines: Sequence[Machine], asked: Asked) -> Answered:
    """What `verify_batch` answered on these machines, where an answer that is not to be taken is TROUBLED, and says why. The numbers of entries that
    are unknown or confirmed are those of the report."""
    first, *reports = text.split("\n")
    told = json.loads(first)
    answers: List[Fields] = told["answers"]
    reported = [answer for answer in answers if answer["verdict"] in REPORTED]
    if not 1 <= len(answers) <= len(machines):
        raise BadAnswers(f"worker {told['worker']} gave {len(answers)} answers on {len(machines)} machines")
    if len(reported) != len(reports):
        raise BadAnswers(f"worker {told['worker']} gave {len(reports)} reports on {len(reported)} machines")
    for answer, report in zip(reported, reports):
        answer["report"] = report
    for answer, machine in zip(answers, machines):
        answer["worker"] = told["worker"]
        fault = _fault_of(answer, machine, asked)
        if fault:
            answer.update(verdict=TROUBLED, cause=fault)
    return Answered(told["worker"], answers, told["seconds"])


def _fault_of(answer: Fields, machine: Machine, asked: Asked) -> str:
    """Why an answer is not to be taken, or an empty text: then the answer has how many entries are unknown, the first, and how many are confirmed."""
    verdict = answer["verdict"]
    answer.pop("confirmed", None)
    if answer.pop("places") != list(machine.places):
        return "the worker's answer is on other files"
    if verdict in REPORTED:
        return _fault_of_report(answer, asked)
    return "" if verdict in (*VERDICTS, UNFIT, TROUBLED, SLOW) else f"the worker's answer is no verdict: {verdict!r}"


def _end_of(report: str) -> "Optional[re.Match[str]]":
    """The end of a report, if it is one. (To search for it by the pattern alone takes longer than all else that is done with an answer.)"""
    start = next((start for start in map(report.rfind, _BEGINNINGS) if start >= 0), 0)
    return _END.match(report, start)


def _fault_of_report(answer: Fields, asked: Asked) -> str:
    """Why a verdict with a report is not to be taken, or an empty text."""
    verdict, end = answer["verdict"], _end_of(answer["report"])
    if end is None or end["verdict"] != verdict:
        return "the worker's verdict is not that of its report"
    if {end["quote"] is not None, "nonce" in answer} != {asked.is_quoted}:
        return "the worker's report is not by a quote" if asked.is_quoted else "the worker's report is by a quote"
    if verdict == "match" and end["quote"] == "differ":
        return "the worker's verdict is a match by a quote that differs"
    prefix = _CONFIRMED.search(answer["report"])
    if prefix is not None and not asked.prefix:
        return "the worker's report is on a prefix"
    if prefix is None and asked.prefix and verdict == "match":
        return "the worker's report is not on a prefix"
    answer["confirmed"] = None if prefix is None else int(prefix["confirmed"])
    if prefix is not None:
        answer["entries"] = int(prefix["entries"])
    if (end["unknown"] is not None) != (asked.known is not None):
        return "the worker's report is not by the known files" if asked.known is not None else "the worker's report is by known files"
    if end["unknown"] is not None:
        unknown = [int(number) for number in end["unknown"].split(",") if number]
        if verdict == "match" and unknown:
            return "the worker's verdict is a match with unknown entries"
        answer.update(unknown=len(unknown), first_unknown=next(iter(unknown), None))
    return ""
