"""Waiting for what happens once."""

from __future__ import annotations

import math
import threading
from typing import List, Optional


def bounded(seconds: float) -> Optional[float]:
    """A timeout as the standard library takes it: none if it is longer than that can tell, and 0 if it is below that."""
    return None if seconds > threading.TIMEOUT_MAX else max(0.0, seconds)


class Latch:
    """It opens once, and stays open. No lock is held while it is waited for or opened, so an interrupt leaves none locked."""

    __slots__ = ("is_open", "_waiting")

    def __init__(self) -> None:
        self.is_open = False
        self._waiting: List[threading.Lock] = []

    def open(self) -> None:
        self.is_open = True
        while self._waiting:
            try:
                self._waiting.pop().release()
            except IndexError:
                # another thread took the last one
                break

    def wait(self, seconds: float = math.inf) -> bool:
        """Waits until it is open, or the time is over; gives whether it is open."""
        if self.is_open:
            return True
        lock = threading.Lock()
        lock.acquire()
        self._waiting.append(lock)
        timeout = bounded(seconds)
        return self.is_open or lock.acquire(timeout=-1 if timeout is None else timeout)
