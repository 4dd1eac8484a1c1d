"""Runs the command `storklocker`: python -m storklocker."""

import sys

from .scanning.command import main

if __name__ == "__main__":
    sys.exit(main())
