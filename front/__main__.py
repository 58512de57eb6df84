# SPDX-License-Identifier: MIT OR Apache-2.0
"""python3 front COMMAND ..: as bsc-front, from a checkout. Not proved."""
import sys

from bsc_front.service.main import main

if __name__ == "__main__":
    sys.exit(main())
