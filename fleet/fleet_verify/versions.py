"""Whether the versions of Python and of Dask's `distributed` fit: those of this process, and those of a cluster."""

import re
from importlib.metadata import version
from typing import Any, Dict, Mapping, NamedTuple, Optional, Tuple

# The first version of `distributed` that this package was tried with, and the first that is too late.
FIRST, TOO_LATE = "2022.12.1", "2023"


class Versions(NamedTuple):
    """The version of `distributed`, and that of Python, of which the first two numbers say whether a function can be sent."""

    distributed: str
    python: str

    def __str__(self) -> str:
        return f"distributed {self.distributed} by Python {self.python}"


def _numbers(text: str) -> Tuple[int, ...]:
    """The numbers with which a version begins, as 2022.12.1+ds.1 with three."""
    found = re.match(r"\d+(?:\.\d+)*", text)
    return tuple(map(int, found[0].split("."))) if found else ()


def require_version() -> None:
    """Makes sure that `distributed` is installed, in a version that this package was made for; raises ImportError otherwise."""
    installed = version("distributed")
    if not _numbers(FIRST) <= _numbers(installed) < _numbers(TOO_LATE):
        raise ImportError(f"its version is {installed}, and has to be from {FIRST} on, and below {TOO_LATE}")


def _versions(told: Mapping[str, Any]) -> Versions:
    """What a process of a cluster says of itself. (What a distribution adds to a version makes it no other.)"""
    distributed, python = (_numbers(str(text)) for text in (told["packages"]["distributed"], told["host"]["python"]))
    return Versions(".".join(map(str, distributed)), ".".join(map(str, python[:2])))


def misfits(told: Mapping[str, Any]) -> Dict[str, Optional[Exception]]:
    """The scheduler and workers whose versions are not those of this process, each with an ImportError that says so, by what
    `Client.get_versions` told."""
    here = _versions(told["client"])
    others = {"(the scheduler)": told["scheduler"], **told["workers"]}
    found = {name: _versions(each) for name, each in others.items()}
    return {name: ImportError(f"it has {each}, and this computer {here}") for name, each in found.items() if each != here}
