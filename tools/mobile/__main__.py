# SPDX-License-Identifier: MIT OR Apache-2.0
"""python3 tools/mobile --imsi DIGITS ..: a mobile on a virtual radio; '--help' tells its words. Not proved."""
import sys

from simulated_mobile.main import main

if __name__ == "__main__":
    try:
        sys.exit(main(sys.argv[1:]))
    except KeyboardInterrupt:
        sys.exit(130)
