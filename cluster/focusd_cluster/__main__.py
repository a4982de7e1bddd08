"""`python3 -m focusd_cluster`."""

import sys

from focusd_cluster.command_line import main

if __name__ == "__main__":
    sys.exit(main())
