"""`ima-report`: its exit status. It is called in the folder that it judges, of which no module is loaded."""

import sys
from typing import Optional, Sequence

from .modules import elsewhere


def main(words: Optional[Sequence[str]] = None) -> int:
    """The exit status of a call with these words, or with those of the command line."""
    sys.path[:] = elsewhere(sys.path)
    from .reporting import report

    return report(sys.argv[1:] if words is None else words)
