"""Leaves a mark when it is imported."""

import os
from pathlib import Path

(Path(os.environ["STORKLOCKER_MARKS"]) / "imported").touch()


class Trip:
    """Named by a hostile pickle."""
