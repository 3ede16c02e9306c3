"""How long a silo that was closed may say nothing."""

from __future__ import annotations

import time
from typing import Optional

# how long it may say nothing before it is killed
MOST_SECONDS_STILL = 60.0
# the same before its first reply, if there may be a long log that it answers again
MOST_SECONDS_TO_BEGIN = 3_600.0
# how often that is looked at
SECONDS_BETWEEN_CHECKS = 1.0


class Stillness:
    """When a silo last said something."""

    def __init__(self, begins_late: bool) -> None:
        self._begins_late = begins_late
        self._said_at: Optional[float] = None

    def note(self) -> None:
        """It says something."""
        self._said_at = time.monotonic()

    def is_too_long(self, since: float) -> bool:
        """Whether it has said nothing for too long since then."""
        if self._said_at is not None:
            since = max(since, self._said_at)
        most = MOST_SECONDS_TO_BEGIN if self._begins_late and self._said_at is None else MOST_SECONDS_STILL
        return time.monotonic() - since > most
