"""A silo with data that is started again after its process ended."""

from __future__ import annotations

import queue
import threading
from typing import Callable, Optional, Tuple

from silo.connection import Connection
from silo.errors import SiloEnded
from silo.forks import LEFT
from silo.latch import Latch

# statuses of a program that refuses its words, or its log: it would do so again
REFUSED = (2, 4)
MOST_SECONDS_BETWEEN_LOOKS = 0.5


class Again:
    """The connection that a silo has now. A thread of its own starts the next one, so that no interrupt leaves half of one behind."""

    def __init__(self, start: Callable[[], Connection]) -> None:
        self._start = start
        self.current = start()
        self._fault: Optional[BaseException] = None
        # who wants another connection in the place of one that ended, or with none that there be no more of them
        self._wanted: queue.SimpleQueue[Tuple[Optional[Connection], Latch]] = queue.SimpleQueue()
        self._is_over = False
        threading.Thread(target=self._run, name="silo again", daemon=True).start()

    def live(self) -> Connection:
        """The connection to ask by: a new one if the last has ended and the silo goes on. It starts one program at most."""
        ended = self.current
        if self._is_over or ended.exchange.ended is None or ended.exchange.ended is LEFT or ended.exchange.ended[0] in REFUSED:
            return ended
        self._ask(ended)
        if self.current is ended and self._fault is not None:
            raise SiloEnded(1, f"it can't be started again: {self._fault}") from self._fault
        return self.current

    def end(self) -> None:
        """From now on there is no other connection."""
        if not self._is_over and self.current.exchange.ended is not LEFT:
            self._ask(None)

    def _ask(self, ended: Optional[Connection]) -> None:
        done = Latch()
        self._wanted.put((ended, done))
        # behind the end nobody looks at what is wanted
        while not (done.wait(MOST_SECONDS_BETWEEN_LOOKS) or self._is_over):
            pass

    def _run(self) -> None:
        while not self._is_over:
            ended, done = self._wanted.get()
            if ended is None:
                self._is_over = True
            elif ended is self.current:
                try:
                    self.current, self._fault = self._start(), None
                except BaseException as fault:
                    self._fault = fault
            done.open()
