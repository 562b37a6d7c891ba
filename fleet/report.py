#!/usr/bin/env python3
"""`ima-report`, called where it lies: fleet/report.py --help says how."""

import sys
from pathlib import Path

sys.dont_write_bytecode = True  # (beside the programs nothing is written)
sys.path.append(str(Path(__file__).resolve().parent.parent / "bindings/python"))  # (unless `ima_verify` is installed)

from fleet_verify.report import main  # noqa: E402

if __name__ == "__main__":
    sys.exit(main())
