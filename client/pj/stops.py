"""Where a test stops a command: before any one of its writes, as a kill would.

Each write to the disk and each request to a server passes `step`. Where the
environment variable `PJ_STOP` is a number, the process ends at that step, from
0 on, without any clearing up. Nothing else looks at the variable.
"""

from __future__ import annotations

import os

STATUS = 137  # as of a process that was killed
_left = int(os.environ["PJ_STOP"]) if os.environ.get("PJ_STOP", "").isdigit() else None
ARMED = _left is not None


def step() -> None:
    """Ends the process where the test asked for it."""
    global _left
    if _left is not None:
        if _left == 0:
            os._exit(STATUS)
        _left -= 1
