"""`/metrics` and `/health` for those who watch, by as much of HTTP as they need."""

from __future__ import annotations

import asyncio
from typing import Callable, Mapping, Optional, Tuple

MOST_BYTES = 8_192
MOST_SECONDS = 5.0
MOST_VISITS = 64
PHRASES = {200: "OK", 400: "Bad Request", 404: "Not Found", 405: "Method Not Allowed", 503: "Service Unavailable"}

# gives a status and a text
Answer = Callable[[], Tuple[int, str]]


class Visits:
    """Those who look at pages, so many at once."""

    def __init__(self, pages: Mapping[str, Answer]) -> None:
        self._pages = pages
        self._count = 0

    def begin(self) -> Visit:
        self._count += 1
        return Visit(self._pages, self._count > MOST_VISITS, self._end)

    def _end(self) -> None:
        self._count -= 1


class Visit(asyncio.Protocol):
    """A connection that asks for one page; it is closed at once if it is one too many."""

    def __init__(self, pages: Mapping[str, Answer], is_one_too_many: bool, on_end: Callable[[], None]) -> None:
        self._pages, self._is_one_too_many, self._on_end = pages, is_one_too_many, on_end
        self._said = b""
        self._transport: Optional[asyncio.Transport] = None
        self._timer: Optional[asyncio.TimerHandle] = None

    def connection_made(self, transport: asyncio.BaseTransport) -> None:
        assert isinstance(transport, asyncio.Transport)
        self._transport = transport
        self._timer = asyncio.get_running_loop().call_later(MOST_SECONDS, transport.abort)
        if self._is_one_too_many:
            self._answer(503, "too many look at once\n")

    def connection_lost(self, fault: Optional[Exception]) -> None:
        self._on_end()
        if self._timer is not None:
            self._timer.cancel()

    def data_received(self, data: bytes) -> None:
        if self._transport is None or self._transport.is_closing():
            return
        self._said += data
        if b"\r\n\r\n" in self._said or b"\n\n" in self._said:
            self._answer(*self._page(self._said.split(b"\n", 1)[0].decode("latin-1").split()))
        elif len(self._said) > MOST_BYTES:
            self._answer(400, "the request is too long\n")

    def _page(self, words: list[str]) -> Tuple[int, str]:
        if len(words) != 3 or not words[2].startswith("HTTP/"):
            return 400, "this is no request of HTTP\n"
        page = self._pages.get(words[1].partition("?")[0])
        if page is None:
            return 404, "there are /metrics and /health\n"
        return page() if words[0] in ("GET", "HEAD") else (405, "GET alone is answered\n")

    def _answer(self, status: int, text: str) -> None:
        assert self._transport is not None
        body = text.encode()
        head = f"HTTP/1.1 {status} {PHRASES[status]}\r\nContent-Type: text/plain; version=0.0.4; charset=utf-8\r\nContent-Length: {len(body)}\r\n"
        is_head = self._said.startswith(b"HEAD ")
        self._transport.write(head.encode() + b"Connection: close\r\n\r\n" + (b"" if is_head else body))
        self._transport.close()
