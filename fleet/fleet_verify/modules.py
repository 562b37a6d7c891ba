"""Where modules are looked for: not in the folder of the call, which others may write."""

import os
from pathlib import Path
from typing import List, Sequence

_PACKAGE = Path(__file__).resolve().parents[1]


def elsewhere(folders: Sequence[str]) -> List[str]:
    """These folders of modules without the current one, however it is written: an empty entry of PYTHONPATH is that, too. It stays only if
    this package is there."""
    here = {os.path.realpath(os.curdir)} - {str(_PACKAGE)}
    return [folder for folder in folders if folder and os.path.realpath(folder) not in here]
