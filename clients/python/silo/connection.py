"""A silo behind two byte streams, for threads."""

from __future__ import annotations

import atexit
import contextlib
import functools
import io
import logging
import math
import queue
import threading
import time
from typing import Any, Callable, Optional, Protocol, Tuple, Union

from silo.errors import SiloEnded, SiloTimeout
from silo.exchange import Exchange, Slot
from silo.forks import LEFT, leave_in_children
from silo.latch import Latch
from silo.still import SECONDS_BETWEEN_CHECKS, Stillness

LOG = logging.getLogger("silo")
# bytes of one read and, but for a longer line, of one write
MOST_AT_ONCE = 65_536
# lines that wait to be written before who asks has to wait
MOST_UNWRITTEN = 10_000
# how long the right to write may be held by one who writes a single line; then an interrupt has lost it
MOST_SECONDS_OF_TURN = 5.0
# how long a silo that reads no more may take to end its output, before it is killed
MOST_SECONDS_DEAF = 10.0
# how long the interpreter's exit waits for a silo that nobody closed
MOST_SECONDS_AT_EXIT = 10.0

# a line, or a step and its fence with what waits for the fence; None is the end
Written = Union[bytes, Tuple[bytes, Slot], None]


class Carrier(Protocol):
    """What brings lines to a silo, and its replies back: a child process, or a socket of a gateway."""

    writing: io.RawIOBase
    reading: io.RawIOBase
    # as many bytes, and fewer, are written whole by one call or not at all, also if it is interrupted; 0 if that isn't so
    whole: int
    # whether its first reply may take long, since it answers a log again before
    begins_late: bool

    def finish(self, in_order: bool) -> Tuple[int, str]:
        """Waits for the end, and gives the status and what the silo told. In order is an end that was asked for, with nothing left unanswered."""

    def kill(self) -> None:
        """Ends it at once."""

    def leave(self) -> None:
        """Lets go of both streams, in a child that was forked."""


class Connection:
    """One thread writes what was asked, several lines at once if they are there; one reads; one runs what others want to be called.

    Who asks while nothing else is under way, and waits for the answer, writes its line itself. Interrupts reach the main thread alone, so
    nobody there holds a lock, nor what another asked: the right to write is taken, and given back, by one call of C each.
    """

    def __init__(self, carrier: Carrier, on_told: Optional[Callable[[str, Any], None]]) -> None:
        self.carrier = carrier
        self.exchange = Exchange(None if on_told is None else functools.partial(self._tell, on_told))
        self._lines: queue.SimpleQueue[Written] = queue.SimpleQueue()
        self._calls: queue.SimpleQueue[Optional[Callable[[], object]]] = queue.SimpleQueue()
        # holds the right to write while nobody writes
        self._turn: queue.SimpleQueue[object] = queue.SimpleQueue()
        self._right = object()
        self._turn.put(self._right)
        self._over, self._called = Latch(), Latch()
        self._stillness = Stillness(carrier.begins_late)
        self._threads = [
            threading.Thread(target=run, name=f"silo {run.__name__[1:]}", daemon=True) for run in (self._write, self._read, self._call)
        ]
        leave_in_children(self)
        atexit.register(self._exit)
        for thread in self._threads:
            thread.start()

    def ask(self, op: str, caller: str, members: str, slot: Slot, seconds: float = math.inf, *, at_once: bool = False) -> None:
        """Asks, and has the slot wait for the reply. It waits itself only while too many lines are unwritten; a SiloTimeout if that takes longer."""
        if self._lines.qsize() > MOST_UNWRITTEN:
            self._wait_for_room(seconds)
        line = self.exchange.request(op, caller, members, slot)
        if at_once and self.exchange.is_alone and len(line) <= self.carrier.whole and self._write_alone(line):
            return
        self._lines.put(line)

    def _wait_for_room(self, seconds: float) -> None:
        until = time.monotonic() + seconds
        while self._lines.qsize() > MOST_UNWRITTEN and not self._over.is_open:
            if time.monotonic() >= until:
                raise SiloTimeout(seconds)
            time.sleep(0.002)

    def ask_in_order(self, step: bytes, slot: Slot) -> None:
        """Asks by a step that may be answered by nothing, and has the slot wait until all is answered up to it."""
        self.exchange.check()
        self._lines.put((step, slot))
        if self.exchange.ended is not None:
            raise SiloEnded(*self.exchange.ended, under_way=True)

    def later(self, call: Callable[[], object]) -> None:
        """Has the thread of callbacks call it."""
        self._calls.put(call)

    def close(self) -> int:
        """Ends the input, waits until all is answered and all callbacks were called, and gives the status.

        A silo that says nothing for a minute is killed.
        """
        self._end_input()
        since = time.monotonic()
        while not self._over.wait(SECONDS_BETWEEN_CHECKS):
            if self._stillness.is_too_long(since):
                self.carrier.kill()
        if threading.current_thread() not in self._threads:
            self._called.wait()
        return self.exchange.ended[0] if self.exchange.ended else 0

    def _end_input(self) -> None:
        """Has all be written that was asked, and nothing more."""
        self.exchange.closed = True
        self._lines.put(None)

    def _exit(self) -> None:
        """At the interpreter's exit: what was asked is answered first, if that doesn't take too long."""
        self._end_input()
        self._over.wait(MOST_SECONDS_AT_EXIT)

    def leave(self) -> None:
        self.exchange.ended = LEFT
        self.carrier.leave()
        self._over.open()
        self._called.open()

    # ---- writing

    def _write_alone(self, line: bytes) -> bool:
        """Writes a line if nobody else writes now; false if the thread that writes has to do it, or to find out why nobody can."""
        try:
            turn = self._turn.get_nowait()
        except queue.Empty:
            return False
        try:
            return self.carrier.writing.write(line) == len(line)
        except (OSError, ValueError):
            return False
        finally:
            self._give_back(turn)

    def _take_turn(self) -> object:
        try:
            return self._turn.get(timeout=MOST_SECONDS_OF_TURN)
        except queue.Empty:
            self._right = object()
            return self._right

    def _give_back(self, turn: object) -> None:
        if turn is self._right:
            self._turn.put(turn)

    def _write(self) -> None:
        try:
            while self._write_some():
                pass
        except (OSError, ValueError):
            # the silo reads no more: as a rule it has ended, and the thread that reads finds that
            if not self._over.wait(MOST_SECONDS_DEAF):
                self.carrier.kill()
        # the right to write is never given back
        self._take_turn()
        with contextlib.suppress(OSError):
            self.carrier.writing.close()

    def _write_some(self) -> bool:
        """Waits for a line, and writes it with those behind it; false at the end."""
        asked = self._lines.get()
        lines, length = [], 0
        while asked is not None:
            if isinstance(asked, tuple):
                asked, slot = asked
                self.exchange.fence(slot)
            lines.append(asked)
            length += len(asked)
            if length >= MOST_AT_ONCE or self._lines.empty():
                break
            asked = self._lines.get()
        data = memoryview(b"".join(lines))
        turn = self._take_turn()
        try:
            while data:
                data = data[self.carrier.writing.write(data) or 0 :]
        finally:
            self._give_back(turn)
        return asked is not None

    # ---- reading

    def _read(self) -> None:
        fault = ""
        try:
            while True:
                data = self.carrier.reading.read(MOST_AT_ONCE)
                if not data:
                    break
                self._stillness.note()
                self.exchange.feed(data)
        except ConnectionResetError:
            # a gateway has closed the connection, with lines that it hasn't read
            pass
        except BaseException as strange:
            fault = f"what it writes can't be read: {strange}"
            self.carrier.kill()
        self._end(fault)

    def _end(self, fault: str) -> None:
        """Tells all that wait. Nothing may keep it from that."""
        try:
            status, told = self.carrier.finish(self.exchange.is_done)
        except BaseException as strange:
            status, told = 1, f"its end can't be waited for: {strange}"
        self.exchange.end(status, told, fault)
        self._over.open()
        atexit.unregister(self._exit)
        with contextlib.suppress(queue.Empty):
            while True:
                asked = self._lines.get_nowait()
                if isinstance(asked, tuple):
                    self.exchange.fence(asked[1])
        self._lines.put(None)
        self._calls.put(None)

    def _call(self) -> None:
        while True:
            call = self._calls.get()
            if call is None:
                break
            try:
                call()
            except BaseException:
                LOG.exception("a callback of a silo raised an exception")
        self._called.open()

    def _tell(self, on_told: Callable[[str, Any], None], grain: str, outcome: Any) -> None:
        self._calls.put(functools.partial(on_told, grain, outcome))
