"""`python3 -m fleet_verify` is `fleet-verify`."""

import sys

from .main import main

if __name__ == "__main__":
    sys.exit(main())
