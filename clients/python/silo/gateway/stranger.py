"""A connection by TCP that hasn't said yet whose it is."""

from __future__ import annotations

import asyncio
from typing import Callable, Optional

from silo.gateway.guest import MOST_AT_ONCE, Guest
from silo.gateway.log import tell_of_others
from silo.gateway.tokens import Tokens, read_entry
from silo.gateway.told import NO_ROOM, NO_TOKEN, fault, written

# how long it may take to say so, and in how many bytes
MOST_SECONDS = 10.0
MOST_BYTES = 8_192


class Stranger(asyncio.Protocol):
    """Reads one line. If it has a tenant's token, the connection is that tenant's from then on; if not, it is closed."""

    def __init__(
        self, tokens: Tokens, guest_of: Callable[[str], Optional[Guest]], on_refused: Callable[[], None], on_gone: Callable[[], None]
    ) -> None:
        self._tokens, self._guest_of, self._on_refused, self._on_gone = tokens, guest_of, on_refused, on_gone
        self._said = b""
        self._transport: Optional[asyncio.Transport] = None
        self._timer: Optional[asyncio.TimerHandle] = None

    def connection_made(self, transport: asyncio.BaseTransport) -> None:
        assert isinstance(transport, asyncio.Transport)
        self._transport = transport
        self._timer = asyncio.get_running_loop().call_later(MOST_SECONDS, transport.abort)

    def data_received(self, data: bytes) -> None:
        self._said += data[:MOST_AT_ONCE]
        line, end, rest = self._said.partition(b"\n")
        if end:
            self._enter(line, rest + data[MOST_AT_ONCE:])
        elif len(self._said) > MOST_BYTES:
            self._refuse()

    def connection_lost(self, fault: Optional[Exception]) -> None:
        self._leave()
        self._on_gone()

    def _enter(self, line: bytes, rest: bytes) -> None:
        said = read_entry(line) if len(line) <= MOST_BYTES else None
        if said is None or not self._tokens.allows(*said):
            self._refuse()
            return
        guest, transport = self._guest_of(said[0]), self._transport
        if guest is None or transport is None:
            self._end(NO_ROOM)
            return
        self._leave()
        self._on_gone()
        transport.set_protocol(guest)
        guest.connection_made(transport)
        guest.tell(written({"ok": guest.lane.tenant}))
        guest.flush()
        guest.take(rest)

    def _refuse(self) -> None:
        self._on_refused()
        tell_of_others("warning", "a connection by TCP gave no tenant's token")
        self._end(NO_TOKEN)

    def _end(self, code: int) -> None:
        if self._transport is not None:
            self._transport.write(fault(code))
            self._transport.close()

    def _leave(self) -> None:
        self._transport = None
        if self._timer is not None:
            self._timer.cancel()
