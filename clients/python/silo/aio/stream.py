"""A silo behind two byte streams, for an event loop."""

from __future__ import annotations

import asyncio
import contextlib
import functools
import socket
import time
from typing import Any, Callable, List, Optional, Union, cast

from silo.connection import MOST_SECONDS_DEAF, Carrier
from silo.errors import SiloTimeout
from silo.exchange import Exchange
from silo.forks import LEFT, leave_in_children
from silo.latch import bounded
from silo.process import BYTES_OF_READ, read_less
from silo.sockets import SocketEnd
from silo.still import SECONDS_BETWEEN_CHECKS, Stillness

# how often it is looked for what wasn't answered in time
SECONDS_BETWEEN_LOOKS = 0.05

Carried = Union[Carrier, SocketEnd]


class Answer(asyncio.Future[Any]):
    """What a request will be answered, and until when (by the loop's clock) it is waited for."""

    def __init__(self, loop: asyncio.AbstractEventLoop, seconds: float) -> None:
        super().__init__(loop=loop)
        self.seconds = seconds
        self.deadline = loop.time() + seconds

    def put(self, outcome: Any) -> None:
        if self.done():
            return
        if isinstance(outcome, Exception):
            self.set_exception(outcome)
        else:
            self.set_result(outcome)


class Stream(asyncio.Protocol):
    """What tasks ask between two waits of the loop is written at once. Everything happens in the thread of the loop."""

    def __init__(self, carrier: Carried, on_told: Optional[Callable[[str, Any], object]]) -> None:
        self._loop = asyncio.get_running_loop()
        self.carrier = carrier
        self.exchange = Exchange(None if on_told is None else functools.partial(self._tell, on_told))
        self._writing: Optional[asyncio.WriteTransport] = None
        self._reading: Optional[asyncio.BaseTransport] = None
        self._lines: List[bytes] = []
        self._room: Optional[asyncio.Future[None]] = None
        self._over: asyncio.Future[None] = self._loop.create_future()
        self._looking = False
        self._stillness = Stillness(carrier.begins_late)
        self._fault = ""
        leave_in_children(self)

    async def open(self) -> None:
        if isinstance(self.carrier, SocketEnd):
            self.carrier.socket.setblocking(False)
            # one transport for both ways
            self._writing, _ = await self._loop.create_connection(functools.partial(Both, self), sock=self.carrier.socket)
            read_less(self._writing)
            return
        reading, _ = await self._loop.connect_read_pipe(lambda: self, self.carrier.reading)
        read_less(reading)
        self._writing, _ = await self._loop.connect_write_pipe(functools.partial(Writing, self), self.carrier.writing)
        # what was asked before is written now
        self._flush()

    async def close(self) -> int:
        """Ends the input, waits until all is answered, and gives the status. A silo that says nothing for a minute is killed."""
        self.exchange.closed = True
        self._flush()
        if self._writing is not None:
            self._writing.write_eof()
        since = time.monotonic()
        while not (await asyncio.wait([self._over], timeout=SECONDS_BETWEEN_CHECKS))[0]:
            if self._stillness.is_too_long(since):
                self._kill()
        return self.exchange.ended[0] if self.exchange.ended else 0

    def leave(self) -> None:
        self.exchange.ended = LEFT
        self.carrier.leave()

    # ---- what is asked

    def ask(self, op: str, caller: str, members: str, seconds: float) -> Answer:
        answer = Answer(self._loop, seconds)
        self._put(self.exchange.request(op, caller, members, answer))
        return answer

    def ask_in_order(self, step: bytes, seconds: float) -> Answer:
        """Asks by a step and a fence behind it, since the step may be answered by nothing."""
        self.exchange.check()
        answer = Answer(self._loop, seconds)
        self.exchange.fence(answer)
        self._put(step)
        return answer

    @property
    def is_full(self) -> bool:
        return self._room is not None

    async def room(self, seconds: float) -> None:
        """Waits while the silo takes nothing more in; a SiloTimeout if that is longer than so many seconds."""
        until = self._loop.time() + seconds
        while self._room is not None:
            found, _ = await asyncio.wait([self._room], timeout=bounded(until - self._loop.time()))
            if not found:
                raise SiloTimeout(seconds)

    def _put(self, line: bytes) -> None:
        if not self._lines:
            self._loop.call_soon(self._flush)
        self._lines.append(line)
        if not self._looking:
            self._looking = True
            self._loop.call_later(SECONDS_BETWEEN_LOOKS, self._look)

    def _flush(self) -> None:
        if self._writing is None:
            return
        if self._lines and not self._writing.is_closing():
            self._writing.write(b"".join(self._lines))
        self._lines.clear()

    def _look(self) -> None:
        """Gives those up that weren't answered in time."""
        now, waiting = self._loop.time(), False
        for slot in self.exchange.under_way():
            answer = cast(Answer, slot)
            if answer.deadline <= now:
                answer.put(SiloTimeout(answer.seconds))
            waiting = waiting or not answer.done()
        self._looking = waiting
        if waiting:
            self._loop.call_later(SECONDS_BETWEEN_LOOKS, self._look)

    # ---- what the loop tells

    def connection_made(self, transport: asyncio.BaseTransport) -> None:
        self._reading = transport

    def data_received(self, data: bytes) -> None:
        self._stillness.note()
        try:
            self.exchange.feed(data)
        except Exception as strange:
            self._fault = f"what it writes can't be read: {strange}"
            self.carrier.kill()
            if self._reading is not None:
                self._reading.close()

    def connection_lost(self, fault: Optional[Exception]) -> None:
        """The output has ended: a thread waits for the rest, since that may take as long as a journal."""
        ending = self._loop.run_in_executor(None, self.carrier.finish, self.exchange.is_done)
        ending.add_done_callback(self._end)

    def read_rest(self, carried: socket.socket) -> None:
        """Takes what had come when a write failed: the loop reads nothing more then."""
        with contextlib.suppress(OSError):
            while not self._fault and (data := carried.recv(BYTES_OF_READ)):
                self.data_received(data)

    def _tell(self, on_told: Callable[[str, Any], object], grain: str, outcome: Any) -> None:
        self._loop.call_soon(on_told, grain, outcome)

    def full(self) -> None:
        self._room = self._loop.create_future()

    def free(self) -> None:
        room, self._room = self._room, None
        if room is not None:
            room.set_result(None)

    def deaf(self) -> None:
        """The silo reads no more: as a rule it has ended. Otherwise it is killed in a while."""
        self.free()
        self._loop.call_later(MOST_SECONDS_DEAF, self._kill)

    def _kill(self) -> None:
        if not self._over.done():
            self.carrier.kill()

    def _end(self, ending: asyncio.Future[Any]) -> None:
        fault = None if ending.cancelled() else ending.exception()
        status, told = ending.result() if fault is None and not ending.cancelled() else (1, f"its end can't be waited for: {fault}")
        self.exchange.end(status, told, self._fault)
        if self._writing is not None:
            self._writing.close()
        self.free()
        if not self._over.done():
            self._over.set_result(None)


class Both(asyncio.Protocol):
    """What the loop tells of a socket, which is written and read."""

    def __init__(self, stream: Stream) -> None:
        self._stream = stream

    def connection_made(self, transport: asyncio.BaseTransport) -> None:
        self._stream.connection_made(transport)

    def data_received(self, data: bytes) -> None:
        self._stream.data_received(data)

    def connection_lost(self, fault: Optional[Exception]) -> None:
        if fault is not None and isinstance(self._stream.carrier, SocketEnd):
            self._stream.read_rest(self._stream.carrier.socket)
        self._stream.connection_lost(fault)

    def pause_writing(self) -> None:
        self._stream.full()

    def resume_writing(self) -> None:
        self._stream.free()


class Writing(asyncio.BaseProtocol):
    """What the loop tells of the stream that is written."""

    def __init__(self, stream: Stream) -> None:
        self._stream = stream

    def pause_writing(self) -> None:
        self._stream.full()

    def resume_writing(self) -> None:
        self._stream.free()

    def connection_lost(self, fault: Optional[Exception]) -> None:
        self._stream.deaf()
