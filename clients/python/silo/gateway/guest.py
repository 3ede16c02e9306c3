"""A connection of somebody who asks."""

from __future__ import annotations

import asyncio
import collections
import contextlib
import time
from typing import TYPE_CHECKING, Callable, Deque, List, Optional, Tuple, Union

from silo.gateway.asked import Block
from silo.gateway.log import tell_of_others
from silo.gateway.pieces import Pieces

if TYPE_CHECKING:
    from silo.gateway.lane import Lane

# bytes of one read: few, so that whoever floods holds the others up for a moment only
MOST_AT_ONCE = 16_384
# bytes of replies that a connection may leave unread before it gets no more turns
MOST_UNREAD = 262_144
# bytes of lines that a connection may have under way
MOST_BYTES = 1_048_576
# how long a connection may read nothing while so much waits for it; and how long where it holds up others of its tenant
MOST_SECONDS_DEAF, MOST_SECONDS_IN_THE_WAY = 60.0, 2.0

# what every connection reads into: the loop reads and hands over at once
ROOM = memoryview(bytearray(MOST_AT_ONCE))


class Guest(asyncio.BufferedProtocol):
    """Reads lines, keeps them until their turn comes, and writes what is told. It isn't read while it has too much under way."""

    def __init__(
        self, lane: Lane, most: int, on_lines: Callable[[Guest], None], on_gone: Callable[[Guest], None], on_last: Callable[[Guest], None]
    ) -> None:
        self.lane = lane
        self._most = most
        self._on_lines, self._on_gone, self._on_last = on_lines, on_gone, on_last
        # what each read brought that waits, and when that was: a block if all lines are as clients write them, else the lines, the last one first
        self.waiting: Deque[Tuple[Union[Block, List[bytes]], float]] = collections.deque()
        # lines and bytes that were read and aren't answered yet
        self.held = self.held_bytes = 0
        self.is_in_turn = False
        self._pieces = Pieces()
        self._transport: Optional[asyncio.Transport] = None
        self._told: List[bytes] = []
        self._is_reading = self._is_deaf = self._has_ended = self._is_lost = self._is_last_call_over = False
        self._is_last_asked = False
        self._deaf_timer: Optional[asyncio.TimerHandle] = None
        self._unread = 0
        self._heard_at = 0.0

    # ---- what the loop tells

    def connection_made(self, transport: asyncio.BaseTransport) -> None:
        assert isinstance(transport, asyncio.Transport)
        self._transport = transport
        transport.set_write_buffer_limits(high=MOST_UNREAD)
        self._is_reading = True

    def get_buffer(self, sizehint: int) -> memoryview:
        return ROOM

    def buffer_updated(self, count: int) -> None:
        self.take(bytes(ROOM[:count]))

    def eof_received(self) -> bool:
        """Nothing more is asked. What was asked is answered, and then the connection is closed."""
        self._has_ended = True
        self._hold(self._pieces.last())
        self._close_if_done()
        return True

    def connection_lost(self, fault: Optional[Exception]) -> None:
        """Nobody reads replies any more. What was read is asked all the same, as by `silo answer`."""
        self._is_lost = self._has_ended = True
        self._transport = None
        if self._deaf_timer is not None:
            self._deaf_timer.cancel()
        self._on_gone(self)
        self._resume()

    def pause_writing(self) -> None:
        self._is_deaf = True
        self._unread, self._heard_at = 0, time.monotonic()
        self._look_again()
        self.look()

    def resume_writing(self) -> None:
        self._is_deaf = False
        if self._deaf_timer is not None:
            self._deaf_timer.cancel()
        self._resume()
        self.look()

    # ---- what the gateway does

    def take(self, data: bytes) -> None:
        self._hold(self._pieces.feed(data))
        self.look()

    @property
    def may_write(self) -> bool:
        """Whether lines of it may be given to the program: not while it leaves too many replies unread."""
        return bool(self.waiting) and not self._is_deaf

    def next_block(self, most: int) -> Tuple[Block, float, int]:
        """Takes what waits longest, of at most so many lines, when it was read, and how many bytes are held for it."""
        asked, since = self.waiting.popleft()
        rest: Union[Block, List[bytes]] = []
        if isinstance(asked, list):
            line, rest = asked.pop(), asked
            block, length = self.lane.reader.read_line(line), len(line)
        else:
            block, rest = asked.parted(most) if len(asked.keys) > most else (asked, rest)
            length = len(block.given)
        if rest:
            self.waiting.appendleft((rest, since))
        return block, since, length

    def tell(self, replies: bytes) -> None:
        """Keeps what it is told until `flush`."""
        if not self._is_lost:
            self._told.append(replies)

    def flush(self) -> None:
        told = b"".join(self._told)
        if self._transport is not None and told:
            self._transport.write(told)
        self._told.clear()
        self._close_if_done()

    def let_go(self, count: int, length: int) -> None:
        """Some of its lines were answered."""
        self.held -= count
        self.held_bytes -= length
        if not self._is_reading:
            self.look()

    def look(self) -> None:
        """Reads on, or stops, by how much is under way."""
        if self._transport is None or self._has_ended:
            return
        is_lane_full = self.lane.is_full
        may_read = not (is_lane_full or self._is_deaf or self._is_last_call_over or self.held >= self._most or self.held_bytes >= MOST_BYTES)
        if is_lane_full:
            self.lane.stop(self)
        if may_read != self._is_reading:
            self._is_reading = may_read
            # a transport that is closing can't be stopped
            with contextlib.suppress(RuntimeError):
                if may_read:
                    self._transport.resume_reading()
                else:
                    self._transport.pause_reading()

    def stop(self) -> None:
        """Nothing more is read from now on."""
        self._is_last_call_over = True
        self.look()

    def close(self) -> None:
        """Closes it once what it was told is written."""
        if self._transport is not None:
            self._transport.close()

    def abort(self) -> None:
        if self._transport is not None:
            self._transport.abort()

    def _hold(self, whole: bytes) -> None:
        """Keeps whole lines until their turn comes. A line of no bytes is passed over."""
        if not whole:
            return
        now, keys = time.monotonic(), self.lane.reader.keys_of(whole)
        if keys:
            self.waiting.append((Block(whole, keys), now))
            count, length = len(keys), len(whole)
        else:
            lines = [line for line in reversed(whole.split(b"\n")) if line]
            if not lines:
                return
            self.waiting.append((lines, now))
            count, length = len(lines), sum(map(len, lines))
        self.held += count
        self.held_bytes += length
        self.lane.hold(count, length)
        self._on_lines(self)

    def _resume(self) -> None:
        if self.waiting:
            self._is_deaf = False
            self._on_lines(self)

    def _look_again(self) -> None:
        """While it is deaf: cuts it off if it reads nothing for too long."""
        if self._transport is None:
            return
        unread, now = self._transport.get_write_buffer_size(), time.monotonic()
        if unread < self._unread:
            self._heard_at = now
        self._unread = unread
        seconds = MOST_SECONDS_IN_THE_WAY if self.lane.is_full else MOST_SECONDS_DEAF
        if now - self._heard_at >= seconds:
            tell_of_others("warning", f"a connection of {self.lane.name} reads no replies, and is cut off")
            self.abort()
        else:
            self._deaf_timer = asyncio.get_running_loop().call_later(MOST_SECONDS_IN_THE_WAY / 2, self._look_again)

    def _close_if_done(self) -> None:
        if self._has_ended and self.held == 0 and self._transport is not None and not self._is_last_asked:
            # what its grains are told comes behind the answer
            self._is_last_asked = True
            self._on_last(self)
