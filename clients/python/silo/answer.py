"""The future of a request."""

from __future__ import annotations

import concurrent.futures
import logging
import threading
from typing import Any, Callable, List, Optional

from silo.errors import SiloTimeout
from silo.latch import Latch

LOG = logging.getLogger("silo")
# how long the thread of callbacks waits for a future that an interrupt left locked
MOST_LOCKED_SECONDS = 5.0
# the states of a future whose waiting was given up
CANCELLED = ("CANCELLED", "CANCELLED_AND_NOTIFIED")
# in the place of an outcome that hasn't come yet
NONE_YET = object()
# in the place of a condition: the outcome came before anybody needed one
SETTLED = object()


class Answer(concurrent.futures.Future[Any]):
    """What a request will be answered. Without a timeout, `result` and `exception` wait as long as the silo's own timeout says.

    Callbacks run in the silo's thread of callbacks, or at once if the answer is there; `wait` and `as_completed` of `concurrent.futures`
    are told by that thread too, so a callback waits by `result`. Who waits in `result` waits at a latch and
    not at the future's condition, which an interrupt may leave locked: then the thread that reads would wait for ever.

    Most answers are there before anybody waits, and have no callback: so latch, condition and lists are made by who needs them first.
    What is looked for and made so is one entry of the object's dictionary, which is set by one call of C.
    """

    # what `concurrent.futures` keeps of a future
    _state = "PENDING"
    _result: Any = None
    _exception: Optional[BaseException] = None
    _waiters: List[Any]
    _done_callbacks: List[Any]
    _outcome: Any = NONE_YET

    def __init__(self, seconds: float, later: Callable[[Callable[[], None]], None]) -> None:
        # not that of a future, which makes all that it may need
        self._seconds = seconds
        self._later = later

    @property
    def _condition(self) -> threading.Condition:
        made: Any = self.__dict__.get("made")
        if made is None:
            for name in ("_waiters", "_done_callbacks"):
                self.__dict__.setdefault(name, [])
            made = self.__dict__.setdefault("made", threading.Condition())
        if made is SETTLED:
            self._state = "FINISHED"
            made = self.__dict__.setdefault("made_late", threading.Condition())
        condition: threading.Condition = made
        return condition

    def result(self, timeout: Optional[float] = None) -> Any:
        """The value, or raises a SiloError, SiloEnded or SiloTimeout."""
        outcome = self._wait(timeout)
        if isinstance(outcome, BaseException):
            raise outcome
        return outcome

    def exception(self, timeout: Optional[float] = None) -> Optional[BaseException]:
        outcome = self._wait(timeout)
        return outcome if isinstance(outcome, BaseException) else None

    def done(self) -> bool:
        return self._outcome is not NONE_YET or self.cancelled()

    def cancelled(self) -> bool:
        return self._state in CANCELLED

    def cancel(self) -> bool:
        """Gives up waiting. The silo isn't told, and may do what was asked."""
        if self._outcome is not NONE_YET and not self.cancelled() or not super().cancel():
            return False
        self._open()
        return True

    def put(self, outcome: Any) -> None:
        """Hands in the outcome. It is called once, by the thread that reads, and waits for nothing.

        What has callbacks, or is waited for by the functions of `concurrent.futures`, is settled in the thread of callbacks.
        """
        self._outcome = outcome
        self._open()
        if self.__dict__.setdefault("made", SETTLED) is SETTLED:
            return
        if self._condition.acquire(blocking=False):
            try:
                if not self._done_callbacks and not self._waiters and self._state == "PENDING":
                    self._state = "FINISHED"
                    return
            finally:
                self._condition.release()
        self._later(self._settle)

    def _open(self) -> None:
        """Wakes who waits in `result`: the outcome, or that it is waited for no longer, was set before."""
        latch = self.__dict__.get("latch")
        if latch is not None:
            latch.open()

    def _wait(self, timeout: Optional[float]) -> Any:
        if self._outcome is NONE_YET and not self.cancelled():
            seconds = self._seconds if timeout is None else timeout
            latch: Latch = self.__dict__.setdefault("latch", Latch())
            # looked at again behind the latch: who opens it has set this first
            if not self.done() and not latch.wait(seconds):
                raise SiloTimeout(seconds)
        if self.cancelled():
            raise concurrent.futures.CancelledError
        return self._outcome

    def _settle(self) -> None:
        """Tells what waits by the means of `concurrent.futures`, and runs callbacks."""
        if not self._condition.acquire(timeout=MOST_LOCKED_SECONDS):
            LOG.error("a future was left locked: its callbacks are not called")
            return
        try:
            running = self.set_running_or_notify_cancel()
        finally:
            self._condition.release()
        if not running:
            return
        if isinstance(self._outcome, Exception):
            self.set_exception(self._outcome)
        else:
            self.set_result(self._outcome)
